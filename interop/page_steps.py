"""Follows a page on a Debian machine: the commands of its numbered steps, as they are."""

import re

from front import check


def section(path, title):
    """The text of a section of a page."""
    with open(path, encoding="utf-8") as file:
        text = file.read()
    begun = text.index(f"\n## {title}\n")
    return text[begun:].split("\n## ")[1]


def steps(text):
    """The commands of each numbered step: a list of lines."""
    found, number = {}, None
    for line in text.split("\n"):
        if step := re.match(r"(\d+)\. ", line):
            number = int(step.group(1))
            found[number] = []
        elif number and (command := re.match(r" {7,8}(?! )(.*)", line)):
            found[number].append(command.group(1))
        elif number and found[number] and line.startswith(" " * 9):
            found[number].append(line)
    return {number: "\n".join(lines) for number, lines in found.items()}


def run(it, name, commands):
    """Runs a step's commands on a machine."""
    commands = "\n".join(line for line in commands.split("\n") if not line.startswith("editor "))
    status, text = it.run("set -e\n" + commands)
    check(f"{it.title}: {name}", (status, text if status else ""), (0, ""))
    return text
