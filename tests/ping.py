"""Asks a server on this machine for its status and prints it: python3 tests/ping.py PORT."""

import sys

from client import ask_status

if __name__ == "__main__":
    if len(sys.argv) != 2 or not sys.argv[1].isdecimal():
        sys.exit(__doc__)
    try:
        print(ask_status(int(sys.argv[1])))
    except ConnectionRefusedError:
        sys.exit(f"nothing listens on 127.0.0.1:{sys.argv[1]}")
