"""`python -m birchagain`: its commands."""

from __future__ import annotations

import argparse
import sys
from typing import List, Optional

from . import __version__
from .serve import command


def main(words: Optional[List[str]] = None) -> int:
    """Runs a command, and answers its status. Without one it prints the help."""
    parser = argparse.ArgumentParser(prog="python -m birchagain", description="Finds documents by their words.")
    parser.add_argument("--version", action="version", version=f"birchagain {__version__}")
    commands = parser.add_subparsers(title="commands", metavar="COMMAND")
    command.add_to(commands)
    arguments = parser.parse_args(words)
    if not hasattr(arguments, "run"):
        parser.print_help()
        return 0
    return arguments.run(arguments)


if __name__ == "__main__":
    sys.exit(main())
