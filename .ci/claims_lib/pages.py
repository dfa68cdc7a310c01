"""The pages as blocks of text, each with its heading, its texts in backticks and its links."""

import re


class Block:
    """A paragraph, a list item, a row of a table, a heading or a block of code of a page."""

    def __init__(self, line, kind, text, title):
        self.line, self.kind, self.text, self.title = line, kind, text, title

    def line_at(self, place):
        """The line of the page on which a place of the text is."""
        return self.line + self.text.count("\n", 0, place)

    def spans(self):
        """Each text in backticks, and the line that it is on."""
        if self.kind == "code":
            return []
        found = re.finditer(r"(`+)(.+?)\1", self.text, re.S)
        return [(self.line_at(it.start()), " ".join(it.group(2).split())) for it in found]

    def links(self):
        """Each link: the line, what it shows and where it goes."""
        if self.kind == "code":
            return []
        found = re.finditer(r"\[([^\]]*)\]\(([^()\s]+)\)", self.text)
        return [(self.line_at(it.start()), " ".join(it[1].split()), it[2]) for it in found]

    def lines(self):
        """The lines of a block of code, those joined that a backslash continues."""
        line = self.line
        for whole in re.split(r"(?<!\\)\n", self.text):
            yield line, re.sub(r"\\\n\s*", "", whole).strip()
            line += whole.count("\n") + 1

    def cells(self):
        """The cells of a row of a table, as texts."""
        return [it.strip() for it in re.split(r"(?<!\\)\|", self.text)[1:-1]]


class Reader:
    """Reads a page in Markdown, line by line."""

    def __init__(self):
        self.blocks, self.title, self.fenced, self.last = [], "", False, "none"

    def kind_of(self, line):
        if self.fenced or line.startswith("    "):
            return "code"
        if line.startswith("|"):
            return "row"
        if re.match(r"#+ ", line):
            return "heading"
        return "text" if line.strip() else "none"

    def read(self, number, line):
        if line.lstrip().startswith("```"):
            self.fenced, self.last = not self.fenced, "none"
            return
        kind = self.kind_of(line)
        if kind == "heading":
            self.title = line.lstrip("#").strip()
        starts = kind in ("row", "heading") or re.match(r"\s*(- |\d+\. )", line)
        if kind != "none" and (kind != self.last or (starts and kind != "code")):
            self.blocks.append(Block(number, kind, line, self.title))
        elif kind != "none":
            self.blocks[-1].text += "\n" + line
        self.last = kind


def blocks_of(text):
    """The blocks of a page in Markdown."""
    reader = Reader()
    for number, line in enumerate(text.split("\n"), 1):
        reader.read(number, line)
    return reader.blocks


def anchors_of(blocks):
    """The anchors of a page, as its headings give them."""
    found = []
    for block in blocks:
        if block.kind == "heading":
            plain = re.sub(r"\[([^\]]*)\]\([^)]*\)", r"\1", block.title).lower()
            slug = re.sub(r"[^\w\- ]", "", plain.replace("`", "")).replace(" ", "-")
            found.append(f"{slug}-{found.count(slug)}" if slug in found else slug)
    return found
