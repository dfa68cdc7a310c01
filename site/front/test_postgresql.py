"""Users in PostgreSQL, as a campus has them: the same rows, the same answers. Over the program or its
stand-in. Needs root, postgresql, freeradius-postgresql."""
import glob
import os
import shutil
import signal
import subprocess
import unittest

import test_lab as lab
import test_radius as radius
from test_logins import stamp, stamps

BIN = sorted(glob.glob("/usr/lib/postgresql/*/bin"))[-1:]


class Users(unittest.TestCase):
    def setUp(self):
        self.lab = lab.Lab()
        self.port = lab.free_port(lab.socket.SOCK_STREAM)
        self.data = self.lab.path("postgresql")
        os.makedirs(self.data)
        shutil.chown(self.data, "postgres", "postgres")
        self.run_as("initdb", "-D", self.data, "-A", "trust", "-E", "UTF8", "--locale=C.UTF-8")
        self.server("start")
        rows = "\n".join(self.lab.users.iterdump()).replace(
            "INTEGER PRIMARY KEY", "SERIAL PRIMARY KEY"
        )
        self.sql(rows.replace("BEGIN TRANSACTION;", "BEGIN;"))
        for table in lab.KINDS:
            self.sql(f"SELECT setval('{table}_id_seq', 1000)")
        self.sql(
            "INSERT INTO radusergroup (username, groupname) VALUES ('al', 'fast'), ('al', 'slower');"
            "UPDATE radusergroup SET priority = 9 WHERE groupname = 'slower';"
            "INSERT INTO radgroupreply (groupname, attribute, op, value) VALUES ('slower', 'Class', ':=', 'free'), "
            "('fast', 'Class', ':=', 'gold');"
            "INSERT INTO radcheck (username, attribute, op, value) VALUES ('it''s', 'Cleartext-Password', ':=', 'right'), "
            "('Müller', 'Cleartext-Password', ':=', 'right'); INSERT INTO radusergroup (username, groupname) "
            "VALUES ('Müller', 'slower');"
        )
        with open(os.path.join(self.lab.raddb, "users.conf"), "w", encoding="utf-8") as file:
            file.write(
                f'driver = "rlm_sql_postgresql", dialect = "postgresql"\nserver = "127.0.0.1", port = {self.port}\n'
                'login = "postgres", radius_db = "postgres", query_timeout = 3\n'
            )
        self.lab.start_book()
        self.lab.start_front()
        print(f"{self.id().partition('.')[2]}: over {lab.OVER}", flush=True)
        self.lab.sell("al", 105)

    def tearDown(self):
        self.lab.end()
        self.server("stop")

    def run_as(self, *words, **more):
        user = ["setpriv", "--reuid", "postgres", "--regid", "postgres", "--clear-groups"]
        how = {"check": True, "stdout": subprocess.DEVNULL, "cwd": "/tmp", **more}
        return subprocess.run([*user, os.path.join(BIN[0], words[0]), *words[1:]], **how)

    def server(self, what):
        if os.path.isdir(self.data):
            how = f"-p {self.port} -c listen_addresses=127.0.0.1 -c unix_socket_directories=''"
            self.run_as("pg_ctl", "-D", self.data, "-m", "immediate", "-w", "-o", how, what)

    def sql(self, text):
        words = ["-q", "-h", "127.0.0.1", "-p", str(self.port), "-v", "ON_ERROR_STOP=1"]
        self.run_as("psql", *words, input=text.encode())

    def test_users(self):
        it = self.lab
        self.assertEqual(stamp(it.login()), "gold;;al")
        self.assertEqual(stamps(it.eap("PEAP", "al", "x", "right", "auth=MSCHAPV2")), "gold;;al")
        self.assertEqual(stamp(it.login("Müller")), "free;;M%C3%BCller")
        for name in ("it's", "nobody", "AL", "al'; DROP TABLE radcheck; --"):
            self.assertEqual(it.login(name).code, 3)
        self.sql("ALTER TABLE radgroupcheck RENAME TO gone")
        self.assertEqual(it.login().code, 3)
        self.sql("ALTER TABLE gone RENAME TO radgroupcheck")
        self.assertEqual(it.login().code, 2)
        self.server("stop")
        for _ in range(5):
            self.assertEqual(it.login().code, 3)
        self.server("start")
        self.assertTrue(lab.waited(lambda: it.login().code == 2, 15))

    def test_a_database_that_stands_still_holds_no_report(self):
        """All threads wait for it, and then no longer."""
        it, folder = self.lab, self.data
        self.assertEqual(it.login().code, 2)
        with open(os.path.join(folder, "postmaster.pid"), encoding="ascii") as file:
            pid = file.readline().strip()
        children = subprocess.run(["pgrep", "-P", pid], stdout=subprocess.PIPE, text=True, check=True)
        pids = list(map(int, [pid, *children.stdout.split()]))
        for one in pids:
            os.kill(one, signal.SIGSTOP)
        try:
            with radius.opened("127.0.0.1", it.logins) as socket:
                for n in range(40):
                    socket.send(radius.login_packet("al", "right", number=n))
            self.assertTrue(it.report([(radius.STATUS, radius.STOP), (radius.ID, "s"),
                                       (radius.USER, "al"), (42, 1000)], tries=3, wait=5))
        finally:
            for one in pids:
                os.kill(one, signal.SIGCONT)


if __name__ == "__main__":
    unittest.main(verbosity=1)
