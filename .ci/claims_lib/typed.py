"""Who types the commands of an operator's page: the script that reads it and runs its steps, or a
person, and why. docs/proofs/FIGURES.md has the table.
"""

# The scripts that run a page's commands, by its path without `.md`.
RUN = {
    "docs/CAMPUS": "interop/start",
    "docs/START": "interop/start",
    "site/copies/README": "interop/gone",
    "site/setup/README": "interop/package",
}
# Pages whose commands a person types, and why no script does.
BY_HAND = {
    "README": "bin/radacctd and bin/build run it",
    "docs/A-LARGE-SITE": "interop/forward does the same over its own books, interop/systemd types "
                         "the steps of a change; the kernel's settings nobody does",
    "docs/ACCESS-SERVERS": "each setting is of another maker's device: interop/access-servers",
    "docs/GONE": "each way needs damage of its own; interop/flips and interop/telling make some of it",
    "docs/TROUBLE": "each symptom is another; rows/run makes what is explained",
    "site/desk/README": "site/desk/live.py gives its commands; interop/queries runs that of a month",
    "site/front/README": ".ci/tool_tests types the import and the removal of users; interop/moved "
                         "moves a table; site/front/test_cut.py ends sessions",
    "site/monitor/README": "site/monitor/live.py has promtool, and no machine of Prometheus",
    "site/packages/README": "site/packages/live.py gives its commands with names of its own",
    "site/vouchers/README": "interop/redeeming.py and interop/gone give its commands",
}


def rows(_checker):
    """Each page for operators with the script that types its commands, or why a person does."""
    for name in sorted({*RUN, *BY_HAND} - {"README"}):
        yield f"- {name}: {f'`{RUN[name]}`' if name in RUN else f'a person: {BY_HAND[name]}'}"


MAKERS = {"followed": rows}
