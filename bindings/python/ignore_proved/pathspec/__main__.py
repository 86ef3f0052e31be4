"""Runs a module as `python3 -m` does, with this package in the place of `pathspec`.

usage: python3 -m ignore_proved.pathspec MODULE [ARG]..
"""
import runpy
import sys

from . import stand_in


def main() -> None:
    """Runs the module that the words name."""
    if len(sys.argv) < 2:
        print(__doc__, end="", file=sys.stderr)
        sys.exit(2)
    stand_in()
    sys.argv[:] = sys.argv[1:]
    runpy.run_module(sys.argv[0], run_name="__main__", alter_sys=True)


if __name__ == "__main__":
    main()
