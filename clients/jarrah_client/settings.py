"""What isn't said with a command: variables of the environment, then the configuration file.

The file is `jarrah/config` in the user's folder of configurations, or where JARRAH_CONFIG says.
What stands in its section `default` is for all servers, and in one with a server's URL for that.
"""

from __future__ import annotations

import os
from configparser import ConfigParser, Error
from pathlib import Path

from .net.server import Trouble

ALL = "default"
FILES = ("cert", "key", "ca")
"""Settings that are files; in the configuration file from its folder on."""
NAMES = ("server", "caller", "author", "editor", "pager", *FILES)


def setting(name: str, url: str | None = None) -> str | None:
    """A setting by its variable, else by the file: for a server, else for all."""
    return os.environ.get(f"JARRAH_{name.upper()}") or configured(name, url)


def configured(name: str, url: str | None) -> str | None:
    """A setting by the file alone."""
    place = config_file()
    if place is None:
        return None
    file = read(place)
    section = url if url and file.has_section(url) else ALL
    value = file.get(section, name, fallback=None)
    if not value:
        return None
    return str(place.parent / Path(value).expanduser()) if name in FILES else value


def config_file() -> Path | None:
    """The configuration file, if there is one."""
    named = os.environ.get("JARRAH_CONFIG")
    if named:
        return Path(named)
    top = os.environ.get("XDG_CONFIG_HOME")
    place = (Path(top) if top else Path.home() / ".config") / "jarrah" / "config"
    return place if place.is_file() else None


def read(place: Path) -> ConfigParser:
    """The settings of a file, each of which has to be known."""
    file = ConfigParser(delimiters=("=",), default_section=ALL, interpolation=None)
    try:
        with place.open(encoding="utf-8") as lines:
            file.read_file(lines)
    except OSError as fault:
        raise Trouble(f"{place}: {fault.strerror}") from None
    except (Error, UnicodeDecodeError) as fault:
        raise Trouble(f"{place} is no configuration: {str(fault).splitlines()[0]}") from None
    for section in (ALL, *file.sections()):
        for name in file[section]:
            if name not in NAMES:
                raise Trouble(f"{place} has {name!r}, which isn't one of {', '.join(NAMES)}")
    return file
