"""Which definitions of this repository a text rests on, by the names in it.

A text names definitions of its own file, and those that a `use` line of its file brings in. A type
or a trait of the code stands for what its declaration and its `impl .. for` blocks name: ghosts,
invariants, contracts of a trait's methods. A name counts if its words are in a text, whatever they
mean there. So a definition may count that is not needed, and none is left out.
"""

import functools
import re

from claims_lib.openers import is_of_program
from claims_lib.tree import text_of

# A `use` line: its crate, and of definitions the module with some names, or with another name.
USE = re.compile(
    r"^[ \t]*(?:pub |ghost )?use Rattle\.(\w+)\."
    r"(?:specs\.([\w.]+?)(?:\.\{([^}\n]*)\}| as (\w+))?;?$|.*)", re.M
)
# How a definition begins, or a module of some, with the comments directly above.
HEAD = re.compile(
    r"^(?: *--.*\n)*( *)((?:(?:abbrev|unfoldable|pub|record|data|module) )+)?(?!use |mod )"
    r"([^\s(){}:]+)(?(2)| : )", re.M
)
# A type or a trait of the code, or what is implemented for it, up to the next item.
DECLARED = re.compile(
    r"^(?:pub(?:\(\w+\))? )?(?:struct|enum|trait|type|impl\b[^{]*? for) (\w+)\b.*"
    r"(?:\n(?:[ )}>{].*|where.*|))*", re.M
)


def words_of(text):
    """The words and signs of a text without comments. An operator's name has `◌` for operands."""
    return set(re.findall(r"\w+|[^\w\s(){}\[\],;:.◌]+", re.sub(r"(?:--|//).*", "", text)))


class Part:
    """A definition, the head of a module of some, or a declaration of the code."""

    def __init__(self, path, text, name, at=0, kind="", modules=()):
        self.path, self.name, self.at, self.modules = path, name, at, modules
        self.lines = [it for it in text.split("\n") if it.strip() and not USE.match(it)]
        # A comment behind it is above something else.
        while self.lines[-1].lstrip().startswith("--"):
            self.lines.pop()
        inner = re.findall(r"^\s+([^\s({-]\S*) : ", "\n".join(self.lines), re.M)
        self.constructors = inner if "data" in kind else []


@functools.lru_cache(maxsize=None)
def definitions_of(path, text):
    """The definitions of a file by name, each with the modules whose parameters it has."""
    heads, modules, found = [], {}, {}
    for head in HEAD.finditer(text):
        # What is deeper than a definition is of it: a field, or a constructor.
        if not heads or len(head[1]) <= len(heads[-1][1]) or heads[-1][2] == "module ":
            heads.append(head)
    for head, after in zip(heads, [*heads[1:], None]):
        whole = text[head.start() : after.start() if after else None]
        around = [it for depth, it in modules.items() if depth < len(head[1])]
        part = Part(path, whole, head[3], head.start(), head[2] or "", around)
        if head[2] == "module ":
            modules[len(head[1])] = part
            continue
        for name in (part.name, *part.constructors):
            found.setdefault(name, []).append(part)
    return found


class Cited:
    """The definitions that were met, and the faults on the way."""

    def __init__(self, tree, read=text_of):
        self.tree, self.read, self.met, self.faults, self.declared = tree, read, set(), [], {}
        for path in filter(is_of_program, tree.files):
            for found in DECLARED.finditer(read(path)):
                kind = (path.split("/")[1], found[1])
                self.declared.setdefault(kind, []).append(Part(path, found[0], found[1]))

    def meet(self, path, text):
        """The definitions that a text of a file rests on, but those that were met before."""
        found, texts = [], [(path, text)]
        for path, text in texts:
            words = words_of(text)
            parts = [it for name, some in self.names(path) if name <= words for it in some]
            for part in [each for it in parts for each in (it, *it.modules)]:
                if part not in self.met:
                    self.met.add(part)
                    texts.append((part.path, "\n".join(part.lines)))
                    found += [part] if part.path.endswith(".antt") else []
        return found

    @functools.lru_cache(maxsize=None)
    def names(self, path):
        """The words of each name that a file has, and what it names."""
        text, is_code = self.read(path), path.endswith(".rt")
        names = [*(self.types(path, text) if is_code else definitions_of(path, text).items())]
        for use in (it for it in USE.finditer(text) if it[1] in self.tree.crates):
            if not use[2]:
                self.faults.append(f"{path}: not understood: {use[0].strip()}")
            elif not use[2].endswith(".TheConstants"):
                names += self.brought(path, *use.groups(default=""))
        return [(words_of(name), parts) for name, parts in names]

    def types(self, path, text):
        """The types and traits of the crates that a source has a word of, also renamed."""
        crates = {path.split("/")[1], *self.tree.crates.intersection(re.findall(r"\w+", text))}
        renamed = dict(re.findall(r"(\w+) as (\w+)", text))
        for (crate, name), parts in self.declared.items():
            if crate in crates:
                yield from ((name, parts), (renamed.get(name, name), parts))

    def brought(self, by, crate, module, names, short):
        """What a `use` line brings: some names of a module, or each behind that of the module."""
        wanted = [it.strip().partition(" as ")[::2] for it in names.split(",") if it.strip()]
        if module.startswith("declared."):
            kind = [it for it in module.split(".") if not it.startswith("The")][-1]
            there = dict.fromkeys(dict(wanted) or [""], self.declared.get((crate, kind)))
        else:
            path = f"crates/{crate}/specs/{module.replace('.', '/')}.antt"
            there = definitions_of(path, self.read(path))
        short = short or module.split(".")[-1]
        for name, new in wanted or [(it, f"{short} {it}") for it in there]:
            if not there.get(name):
                self.faults.append(f"{by}: no `{name}` in {crate}, {module}")
            yield new or name, there.get(name) or []
