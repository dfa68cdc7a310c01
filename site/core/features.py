"""Finds the features of the kit: each folder that has a feature.py.

Nothing else names a feature, so one whose folder is removed is gone. A feature.py may say

    COMMANDS   of each command of radacctl what it does, and the module that does it
    PAGES      which pages there are, and who may ask for them: each a Page
    MENU       what the menu of each page has: each an Entry
    TABLES     its tables in site.db
    EACH_MINUTE  what is done each minute, by the name of a function: as the user of the pages
    EACH_NIGHT   what is done each night, by the name of a function: as root
    OF_ACCOUNT where the staff goes on from an account: each an Entry
    WHOSE      the account of a key that a guest gives, by the name of a function
    REFUSES    why nothing is sold to an account, by the name of a function
    PACKAGES   of Debian, which the set-up installs
    UNITS      which the set-up enables
    SETUP      its part of the set-up: a module that may have packages(answers), files(answers,
               config), units(answers) and tries(answers, config)
    LOOKS      what no step sees: a module that has look_at(answers, config)
    CRITICAL, WARNINGS  the faults that these name, with what each means
    NOTES      what they name besides, and is no fault of the site
"""

import collections
import functools
import importlib
import os

TOP = os.path.dirname(os.path.dirname(os.path.realpath(__file__)))
NAME = "radacctd_site"
# Who asks: each may ask for what is said of them alone.
NOBODY, GUEST, CASHIER, OPERATOR = ROLES = ("nobody", "guest", "cashier", "operator")
ANYBODY, STAFF = frozenset(ROLES), frozenset((CASHIER, OPERATOR))
# A page: the method and the path of its request, as bottle has it, the function that answers it, as
# module:name, and the roles that may ask.
Page = collections.namedtuple("Page", "method path does roles")
# An entry of the menu: where it leads, its English title, and the roles that see it.
Entry = collections.namedtuple("Entry", "path title roles")


@functools.cache
def features():
    """What each feature says of itself, by its name; the core's first."""
    names = sorted((it for it in os.listdir(TOP) if os.path.isfile(f"{TOP}/{it}/feature.py")),
                   key=lambda it: (it != "core", it))
    return {it: importlib.import_module(f"{NAME}.{it}.feature") for it in names}


def listed(member):
    """What all features say under a name."""
    return [it for module in features().values() for it in getattr(module, member, ())]


def modules(member):
    """The module that each feature names, by the feature's name."""
    return {name: importlib.import_module(f"{NAME}.{name}.{getattr(it, member)}")
            for name, it in features().items() if hasattr(it, member)}


def meanings(member):
    """What each fault means, by its name: those that harm now, or those that wait."""
    return {name: text for it in features().values()
            for name, text in getattr(it, member, {}).items()}


def commands():
    """Each command: what it does, and the name of its module."""
    return {name: (text, f"{NAME}.{feature}.{module}") for feature, it in features().items()
            for name, (text, module) in getattr(it, "COMMANDS", {}).items()}


def tables():
    return "".join(getattr(it, "TABLES", "") for it in features().values())


def function(feature, does):
    """A function that a feature names as module:name."""
    module, _, name = does.partition(":")
    return getattr(importlib.import_module(f"{NAME}.{feature}.{module}"), name)


def pages():
    """Each page with the function that answers it: one table of who may do what."""
    return [(page, function(feature, page.does)) for feature, it in features().items()
            for page in getattr(it, "PAGES", ())]


def functions(member):
    """The function that each feature names."""
    return [function(name, getattr(it, member)) for name, it in features().items()
            if hasattr(it, member)]
