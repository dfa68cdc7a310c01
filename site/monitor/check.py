"""The check of a site that `radacctl setup` made, each night: faults that it finds fail the unit."""

import os
import time

from radacctd_site.core import Failed, machine, places


def each_night():
    """What only follows from a start, of the server by the copy or of the machine, is over soon."""
    if not os.path.exists(f"{places.NOTES}/answers.json"):
        return
    for seconds in (0, 60, 300):
        time.sleep(seconds)
        status, said = machine.run(places.RADACCTL, "setup", "--check", seconds=3600)
        if not status:
            print(said, end="")
            return
    raise Failed(f"radacctl setup --check:\n{said}")
