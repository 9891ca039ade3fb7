"""Runs the stand-in by hand: `python3 -m tests.stand_in [PORT]`, in the folder of the client."""

import sys

from .http import StandIn

with StandIn(int(sys.argv[1]) if len(sys.argv) > 1 else 0) as stand_in:
    print(stand_in.url, flush=True)
    try:
        sys.stdin.read()
    except KeyboardInterrupt:
        pass
