"""Git's `proc-receive` hook: hands a push's commands to the remote, and its answers to git.

It runs by itself and is kept small, since each push waits for it to start. It and the remote
exchange a JSON document a line, over a socket that is open already under the number JARRAH_PUSH.
"""

import json
import os
import socket
import sys


def read_packet() -> "bytes | None":
    """The next packet of git's, or None for the one that ends a list."""
    length = int(sys.stdin.buffer.read(4), 16)
    return sys.stdin.buffer.read(length - 4) if length else None


def read_packets() -> "list[str]":
    """The packets up to the one that ends the list."""
    packets = iter(read_packet, None)
    return [packet.decode(errors="surrogateescape").rstrip("\n") for packet in packets]


def write_packets(texts: "list[str]") -> None:
    """Writes packets, and the one that ends the list."""
    for text in texts:
        data = text.encode(errors="surrogateescape")
        sys.stdout.buffer.write(b"%04x" % (len(data) + 4) + data)
    sys.stdout.buffer.write(b"0000")
    sys.stdout.buffer.flush()


def main() -> int:
    """Asks the remote, tells what it says, and reports what became of each command."""
    read_packets()
    write_packets(["version=1\0"])
    asked = {"commands": [command.split(" ", 2) for command in read_packets()]}
    with socket.socket(fileno=int(os.environ["JARRAH_PUSH"])) as link:
        with link.makefile("rw", encoding="utf-8", newline="\n") as stream:
            stream.write(json.dumps(asked) + "\n")
            stream.flush()
            for line in stream:
                answer = json.loads(line)
                for words in answer.get("say", []):
                    print(words, file=sys.stderr, flush=True)
                if "report" in answer:
                    write_packets(answer["report"])
                    return 0
    print("the remote was ended before it answered: push again", file=sys.stderr)
    return 1


if __name__ == "__main__":
    sys.exit(main())
