"""The programs of this folder, and the temporary repository in which each of them is built.

A program is `NAME_program.rattle`. The gate reads no `.rattle` file, so it does not prove a program
each time; `.ci/benches` reads each of them far enough to see that it compiles. A line `mod WORD;`
of a program is the file `NAME_WORD.rattle`, or `WORD.rattle` if several programs share it. Its
crates are those that its `use` lines name and, by crates.txt, all below them.
"""

import os
import re
import shutil
import subprocess
import sys
import tempfile

BENCH = os.path.dirname(os.path.abspath(__file__))
ROOT = os.path.dirname(BENCH)
END = "_program.rattle"
# More seconds than any run is to take.
SECONDS = 14_400
# What a `use` line may begin with that is no crate of crates.txt's lines.
NO_CRATES = {"core", "crate", "self", "std", "super"}


def names():
    """The names of the programs."""
    return sorted(it[: -len(END)] for it in os.listdir(BENCH) if it.endswith(END))


def text_of(path):
    with open(path, encoding="utf-8") as file:
        return file.read()


def sources_of(name):
    """The files of a program, by their paths in the folder of its crate."""
    main = os.path.join(BENCH, name + END)
    files = {"src/main.rt": main}
    for word in re.findall(r"^mod (\w+);", text_of(main), re.M):
        own = os.path.join(BENCH, f"{name}_{word}.rattle")
        shared = os.path.join(BENCH, word + ".rattle")
        files[f"src/{word}.rt"] = own if os.path.isfile(own) else shared
    return files


def uses_of(name):
    """The crates that the `use` lines of a program name."""
    texts = [text_of(it) for it in sources_of(name).values()]
    used = {word for text in texts for word in re.findall(r"^use (\w+)::", text, re.M)}
    modules = {word for text in texts for word in re.findall(r"^mod (\w+);", text, re.M)}
    return sorted(used - modules - NO_CRATES)


def lines_below(crates):
    """The lines of crates.txt for these crates and all below them, by the crates' names."""
    text = text_of(os.path.join(ROOT, "crates.txt"))
    rows = [it.partition("#")[0] for it in text.splitlines()]
    lines = {it.split(":")[0].strip(): it for it in rows if ":" in it}
    found, wanted = {}, list(crates)
    while wanted:
        crate = wanted.pop()
        if crate in lines and crate not in found:
            found[crate] = lines[crate]
            wanted += lines[crate].split(":")[1].split()
    return found


def give(source, target):
    """Gives a file of a library a second name. The kit replaces such a file, and never changes it."""
    try:
        os.link(source, target)
    except OSError:
        shutil.copy2(source, target)


def made(name, folder, takes_libraries=True):
    """Makes the repository of a program in this folder, and returns the folder of its crate.

    What was built of a library comes along if it is wanted, so that it is not proved again.
    """
    uses = uses_of(name)
    lines = lines_below(uses)
    for crate in lines:
        source, target = (os.path.join(it, "crates", crate) for it in (ROOT, folder))
        shutil.copytree(source, target, ignore=shutil.ignore_patterns("out"))
        library = os.path.join(source, "out", "rlib")
        if takes_libraries and os.path.isdir(library):
            shutil.copytree(library, os.path.join(target, "out", "rlib"), copy_function=give)
    program = os.path.join(folder, "crates", f"{name}_program")
    for path, source in sources_of(name).items():
        os.makedirs(os.path.dirname(os.path.join(program, path)), exist_ok=True)
        shutil.copyfile(source, os.path.join(program, path))
    with open(os.path.join(folder, "crates.txt"), "w", encoding="utf-8") as file:
        file.writelines(f"{it}\n" for it in lines.values())
        file.write(f"{name}_program: {' '.join(uses)}\n")
    return program


def built(name, folder, *words):
    """Proves and builds a program in this folder, runs it once with these words, and returns the
    path of the executable and what it printed.
    """
    crate = made(name, folder)
    ran = subprocess.run(
        ["rt", "run", "--", *words],
        cwd=crate,
        stdin=subprocess.DEVNULL,
        stdout=subprocess.PIPE,
        stderr=subprocess.PIPE,
        encoding="utf-8",
        errors="replace",
        check=False,
    )
    if ran.returncode != 0:
        said = (ran.stdout + ran.stderr)[-4000:]
        sys.exit(f"{said}\nthe program was not built or did not run")
    return os.path.join(crate, "out", f"{name}_program"), ran.stdout


def numbers(name, *words):
    """What a program prints that was proved and built: a list of numbers for each line."""
    with tempfile.TemporaryDirectory() as folder:
        _, printed = built(name, folder, *words)
    return [[int(word) for word in line.split()] for line in printed.splitlines()]


def tried(name, *words, flags=(), text=""):
    """Compiles a program unproved, with checks of its memory, and runs it with these words over
    this text. It is for a program that states nothing of its own.
    """
    with tempfile.TemporaryDirectory() as folder:
        return subprocess.run(
            # The interpreter comes first, and is cut off at once: the compiled run is enough.
            ["rt", "try", "--steps", "1", "--seconds", str(SECONDS), *flags, "--", *words],
            cwd=made(name, folder),
            input=text,
            stdout=subprocess.PIPE,
            stderr=subprocess.PIPE,
            encoding="utf-8",
            errors="replace",
            check=False,
        )


def run(*words):
    """What a command prints, and its peak memory in megabytes, or that of this process if it is
    greater.
    """
    with subprocess.Popen(words, stdout=subprocess.PIPE) as process:
        printed = process.stdout.read()
        _, status, usage = os.wait4(process.pid, 0)
        process.returncode = os.waitstatus_to_exitcode(status)
    if process.returncode != 0:
        sys.exit(f"{' '.join(words)} did not run to its end")
    return printed, usage.ru_maxrss / 1024
