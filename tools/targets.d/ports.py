#!/usr/bin/env python3
"""The ports of 127.0.0.1, for the tools that run servers:

  tools/targets.d/ports.py free                 prints one that nobody listens to
  tools/targets.d/ports.py wait PROTOCOL PORT   waits until a server listens, for a minute at most; the protocol is tcp or udp
"""

import pathlib
import socket
import sys
import time

HOST = "127.0.0.1"
KINDS = {"tcp": socket.SOCK_STREAM, "udp": socket.SOCK_DGRAM}
# what /proc/net has as the state of a socket that listens
LISTENS = {"tcp": "0A", "udp": "07"}


def free(protocol="tcp"):
    with socket.socket(socket.AF_INET, KINDS[protocol]) as probe:
        probe.bind((HOST, 0))
        return probe.getsockname()[1]


def is_listened_to(protocol, port):
    """Whether a server listens, by a look that doesn't connect to it."""
    wanted = {f"{address}:{port:04X}" for address in ("0100007F", "00000000")}
    sockets = (line.split() for line in pathlib.Path(f"/proc/net/{protocol}").read_text().splitlines()[1:])
    return any(local in wanted and state == LISTENS[protocol] for _, local, _, state, *_ in sockets)


def wait(protocol, port, seconds=60):
    """Waits until a server listens, and says whether one does."""
    deadline = time.monotonic() + seconds
    while not is_listened_to(protocol, port):
        if time.monotonic() > deadline:
            return False
        time.sleep(0.05)
    return True


if __name__ == "__main__":
    if sys.argv[1:] == ["free"]:
        print(free())
    elif len(sys.argv) == 4 and sys.argv[1] == "wait" and sys.argv[2] in KINDS:
        sys.exit(not wait(sys.argv[2], int(sys.argv[3])))
    else:
        sys.exit(__doc__)
