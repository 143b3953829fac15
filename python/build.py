#!/usr/bin/env python3
"""Builds the wheel for this Python, and prints its path: python/build.py [FOLDER].

The wheel is written to FOLDER, by default python/dist. python/backend.py documents which static library it uses, and
what it needs.
"""

import sys
from pathlib import Path

import backend


def main(arguments):
    if len(arguments) > 1 or arguments[:1] in (["-h"], ["--help"]):
        sys.exit("usage: python/build.py [FOLDER]")
    folder = Path(arguments[0]) if arguments else backend.HERE / "dist"
    folder.mkdir(parents=True, exist_ok=True)
    try:
        print(folder / backend.build_wheel(folder))
    except backend.BuildFailed as error:
        sys.exit(f"python/build.py: {error}")


if __name__ == "__main__":
    main(sys.argv[1:])
