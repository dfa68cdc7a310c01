"""What is wrong with a site: steps that do not hold, what no step sees, and what people try."""

from radacctd_site.core import Failed, cli, features, machine
from radacctd_site.core.steps import Fault
from radacctd_site.setup import beside, pages, server

# What follows from a book that is away; another cure, which starts the server anew, could lose it.
FOLLOW = ("balances-old", "unit-down", "differs", "reports-wait", "plan-waits")
FIRST = "first what the line book-away says; stop and restart nothing before"
# How long one side may be looked at, in seconds.
LONGEST = 300


def looked(side, name="not-seen", cure="mend it, and look again"):
    """What one side finds. One that surprises is no reason to keep the others from the operator."""
    found = []
    try:
        with machine.within(LONGEST):
            for it in side():
                found.append(it)
    except (Failed, OSError, ValueError, LookupError, ArithmeticError) as why:
        found.append(Fault(name, cli.reason(why), cure))
    return found


def sides(config, wanted, steps_of):
    yield lambda: (it for step in steps_of(wanted, config) for it in step.faults())
    yield lambda: server.seen(config)
    yield beside.seen
    if wanted.host:
        yield lambda: pages.seen(wanted)
    for part in features.modules("LOOKS").values():
        yield lambda part=part: part.look_at(wanted, config)


def looked_at(make_config, wanted, steps_of, tries):
    """The faults of each side. What people do is tried unless something grave is known."""
    try:
        config = make_config()
    except Failed as why:
        return [Fault("config-wrong", str(why), 'mend it: reference/faults.md'),
                *looked(server.away), *looked(beside.seen)]
    critical = features.meanings("CRITICAL")
    found = [it for side in sides(config, wanted, steps_of) for it in looked(side)]
    if not any(it.name in critical for it in found):
        found += looked(lambda: [it for it in tries(wanted, config) if not it], "try-failed",
                        "look at what it names")
    return found


def faults(*given):
    """All of them, the gravest first."""
    critical, found = features.meanings("CRITICAL"), looked_at(*given)
    if any(it.name == "book-away" for it in found):
        found = [it._replace(cure=FIRST) if it.name in FOLLOW else it for it in found]
    notes = features.meanings("NOTES")
    return sorted(dict.fromkeys(found), key=lambda it: (
        it.name != "book-away", it.name not in critical, it.name in notes))


def main(*given):
    """Prints each fault, and what is none of the site's: the status."""
    found, notes = faults(*given), features.meanings("NOTES")
    for it in found:
        print(cli.plain(f"{it.name}: {it.text}. Do: {it.cure}"))
    is_wrong = any(it.name not in notes for it in found)
    if not is_wrong:
        print("nothing is wrong")
    return int(is_wrong)
