"""Codes that people type: 14 random letters and digits, and one that shows a slip of a finger."""

import secrets

# No letter or digit that looks like another one: 23 of them, so that 14 are 63 bits.
LETTERS, RANDOM, GROUP = "ACDEFHJKMNPQRTUWXY34679", 14, 5


def check_letter(code):
    """The letter that makes one wrong letter, or two in the wrong order, a wrong code."""
    return LETTERS[sum(at * LETTERS.index(it) for at, it in enumerate(code, 1)) % len(LETTERS)]


def letters(count):
    """Letters by chance, as keys and passwords have them."""
    return "".join(secrets.choice(LETTERS) for _ in range(count)).lower()


def new():
    code = letters(RANDOM).upper()
    return read(code + check_letter(code))


def read(text):
    """A code as it is kept, in groups, or None if the text is none."""
    code = text.upper().replace(" ", "").replace("-", "")
    if len(code) != RANDOM + 1 or set(code) - set(LETTERS) or check_letter(code[:-1]) != code[-1]:
        return None
    return "-".join(code[at : at + GROUP] for at in range(0, len(code), GROUP))
