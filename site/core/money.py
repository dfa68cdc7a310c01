"""Sums of money: whole units of the book, and the site's money that people read and write."""

import json
import re

from radacctd_site.core import Failed, told

LARGEST_SUM = 1_000_000_000_000
DIGITS = re.compile("[0-9]{1,13}")
SETTINGS = "/etc/radacctd-web/settings.json"
MOST_DECIMALS = 6


def sum_of(text):
    """The sum that a text says in units of the book, or None if it is none."""
    if not DIGITS.fullmatch(text) or not 1 <= int(text) <= LARGEST_SUM:
        return None
    return int(text)


def settings_in(path=SETTINGS):
    """The settings of the pages, each of its kind."""
    with open(path, encoding="utf-8") as file:
        with told(Failed, f"{path} is no JSON: ", ValueError):
            found = json.load(file)
    if not isinstance(found, dict):
        raise Failed(f"{path} is no object of settings")
    decimals = found.setdefault("decimals", 0)
    if type(decimals) is not int or not 0 <= decimals <= MOST_DECIMALS:
        raise Failed(f"{path}: decimals is a number from 0 to {MOST_DECIMALS}")
    for name in ("name", "url", "currency"):
        if not isinstance(found.setdefault(name, ""), str):
            raise Failed(f"{path}: {name} is a text")
    return found


def of_site(path):
    """The site's money. Without settings sums are in units of the book."""
    try:
        found = settings_in(path)
    except FileNotFoundError:
        return Money()
    except OSError as why:
        raise Failed(f"the site's money: {why}") from None
    return Money(found["decimals"], found["currency"])


class Money:
    """The site's money: its name, and how many decimals it has."""

    def __init__(self, decimals=0, currency=""):
        self.decimals, self.currency = decimals, currency

    def units(self, text):
        """Units of the book for a sum that a person wrote, or None."""
        found = re.fullmatch(r"([0-9]{1,13})(?:[.,]([0-9]{1,6}))?", text)
        part = found[2] or "" if found else ""
        if not found or len(part) > self.decimals:
            return None
        units = int(found[1] + part.ljust(self.decimals, "0"))
        return units if 1 <= units <= LARGEST_SUM else None

    def plain(self, units):
        """A sum without the money's name."""
        whole, part = divmod(abs(units), 10**self.decimals)
        text = f"{whole}" + (f".{part:0{self.decimals}d}" if self.decimals else "")
        return "-" * (units < 0) + text

    def shown(self, units):
        return f"{self.plain(units)} {self.currency}".strip()
