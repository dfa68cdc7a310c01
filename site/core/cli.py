"""Runs a command of a feature: `radacctl COMMAND`. Each option has a text."""

import argparse
import importlib
import os
import sqlite3
import sys

from radacctd_site.core import Failed, features
from radacctd_site.core.names import plain


def reason(fault):
    """What a person reads of a fault: of one of the system's the file, and no number."""
    if isinstance(fault, OSError) and fault.strerror:
        return ": ".join(str(it) for it in (fault.filename, fault.strerror) if it)
    return str(fault)


def start(words):
    """The status of radacctl. Each command says why it did not do all."""
    top = argparse.ArgumentParser(
        "radacctl", epilog="The status is 0 if all was done, and 2 for a bad command line.",
        description="Works on a site of radacctd. `radacctl COMMAND --help` describes a command.")
    commands = top.add_subparsers(dest="name", metavar="COMMAND", required=True)
    for name, (text, _) in features.commands().items():
        commands.add_parser(name, help=text, add_help=False)
    name = top.parse_args(words[:1]).name
    try:
        return main(name, words[1:])
    except BrokenPipeError:
        # Who read it has gone: nothing more is written, and no fault is printed at the end.
        os.dup2(os.open(os.devnull, os.O_WRONLY), sys.stdout.fileno())
        return 1
    except (Failed, OSError) as why:
        print(f"radacctl {name}: {plain(reason(why), chr(10))}", file=sys.stderr, flush=True)
        return getattr(why, "status", 1)
    except KeyboardInterrupt:
        print(f"radacctl {name}: stopped: give the same again, and it goes on", file=sys.stderr)
        return 130


def is_much(count, total, site):
    """Whether a person is asked before so many of a sum are made: 100, or 1000 in the site's money."""
    return count > 100 or count * total > 1000 * 10**site.decimals


def confirm(question, is_sure):
    """Ends unless a person says y, or has given --yes."""
    if is_sure:
        return
    if not sys.stdin.isatty():
        raise Failed(f"{question} Nobody is there to answer: give --yes.")
    print(f"{question} [y/N] ", end="", flush=True)
    if sys.stdin.readline().strip().lower() not in ("y", "yes", "j", "ja", "o", "oui"):
        raise Failed("nothing was done")


def parser(name, module):
    it = argparse.ArgumentParser(
        prog=f"radacctl {name}", description=module.__doc__, allow_abbrev=False,
        formatter_class=argparse.RawDescriptionHelpFormatter)
    if hasattr(module, "arguments"):
        module.arguments(it)
    return it


def module_of(name):
    return importlib.import_module(features.commands()[name][1])


def main(name, words):
    """The status of a command. Failed says why not all was done."""
    module = module_of(name)
    try:
        return module.main(parser(name, module).parse_args(words))
    except sqlite3.Error as why:
        raise Failed(f"site.db cannot be used: {why}") from None
