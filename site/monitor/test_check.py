"""A night fails by what the check still finds after some minutes, and says it."""

import contextlib
import io
import unittest
from unittest import mock

from radacctd_site.core import Failed, machine
from radacctd_site.monitor import check


class Night(unittest.TestCase):
    def test_what_stays_wrong_fails_it(self):
        runs = mock.Mock(side_effect=[(1, "x"), (0, "note\n")] + [(1, "unit-down: y")] * 3)
        with mock.patch.object(machine, "run", runs), mock.patch.object(check, "time"), \
                mock.patch.object(check.os.path, "exists", lambda _: True), \
                contextlib.redirect_stdout(io.StringIO()) as said:
            check.each_night()
            self.assertEqual(said.getvalue(), "note\n")
            self.assertRaisesRegex(Failed, "unit-down: y", check.each_night)
        self.assertEqual(runs.call_count, 5)


if __name__ == "__main__":
    unittest.main()
