"""What the command line of a script of this folder asks for, and what the machine must have."""

import os
import shutil
import subprocess
import sys

import __main__

NOT_BUILT = "the program is not built of these sources: bin/build"
BUILD = os.path.join(os.path.dirname(os.path.abspath(__file__)), "..", "bin", "build")


def words(*numbers, parts=()):
    """The numbers that a command line begins with, each else as given here; and behind them, if the
    script has parts, a list of those that are named, or of all.

    --help prints the head of the script. Any other word ends it with the status 2.
    """
    given, found = sys.argv[1:], list(numbers)
    if {"-h", "--help"}.intersection(given):
        print(__main__.__doc__.strip())
        sys.exit(0)
    for at, number in enumerate(numbers):
        if given and given[0].replace(".", "", isinstance(number, float)).isdecimal():
            found[at] = type(number)(given.pop(0))
    unknown = [it for it in given if it not in parts]
    if unknown:
        print(f"{sys.argv[0]}: {unknown[0]} is none of: {' '.join(parts) or '--help'}",
              file=sys.stderr)
        sys.exit(2)
    return [*found, given or list(parts)] if parts else found


def is_built():
    return subprocess.run([BUILD, "-q"]).returncode == 0


def must_be_built():
    """Ends with the status 2 if the program is not built of these sources."""
    if not is_built():
        print(NOT_BUILT, file=sys.stderr)
        sys.exit(2)


def needs(tools, is_root=False):
    """Ends with the status 2 if a tool is missing, which a package has, or root or the program is:
    it prints what. No script is to build the program for an hour. RADACCTD names another one.
    """
    lacks = [f"{tool} is missing: the package {package} has it" for tool, package in tools.items()
             if shutil.which(tool) is None]
    if is_root and os.geteuid():
        lacks.append("run this as root")
    if "RADACCTD" not in os.environ and not is_built():
        lacks.append(NOT_BUILT)
    if lacks:
        print(*lacks, sep="\n", file=sys.stderr)
        sys.exit(2)
