"""Does what the features do each night: radacctd-night.timer starts it.

What fails keeps nothing else from being done. Then the status is 1, so the unit has failed.
"""

import sys

from radacctd_site.core import Failed, features


def main(_):
    failed = 0
    for does in features.functions("EACH_NIGHT"):
        try:
            does()
        except (Failed, OSError) as why:
            print(why, file=sys.stderr, flush=True)
            failed += 1
    if failed:
        raise Failed(f"not all was done: {failed} failed")
    return 0
