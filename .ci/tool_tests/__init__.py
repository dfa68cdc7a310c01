"""Unit tests of radacctl's package and of .ci/claims: .ci/tools runs them without the program."""

import importlib.machinery
import importlib.util
import os
import sys

sys.dont_write_bytecode = True
ROOT = os.path.dirname(os.path.dirname(os.path.dirname(os.path.abspath(__file__))))
sys.path.insert(0, os.path.join(ROOT, "interop"))

import kit  # radacctd_site is found by it


def script(*path):
    """A script of the repository, as a module."""
    loader = importlib.machinery.SourceFileLoader(path[-1], os.path.join(ROOT, *path))
    module = importlib.util.module_from_spec(importlib.util.spec_from_loader(path[-1], loader))
    loader.exec_module(module)
    return module
