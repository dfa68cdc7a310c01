#!/usr/bin/python3
"""The alerts over the counts of the built program, by Debian's promtool.

    RADACCTD=.../radacctd site/monitor/live.py

Each alert fires in a case that promtool plays, and another machine beside it raises none. Each
count that a rule or the page names is one that the program writes. It needs Debian's prometheus and
freeradius-utils. It ends with 0 if all is as it should be, else with 1.
"""

import json
import os
import re
import sys
import tempfile
import time

sys.dont_write_bytecode = True
HERE = os.path.dirname(os.path.realpath(__file__))
ROOT = os.path.dirname(os.path.dirname(HERE))
sys.path.insert(0, os.path.join(ROOT, "interop"))

import served
from machine import run
from served import Server, check, report

RULES, PAGE = (f"{HERE}/{it}" for it in ("radacctd.rules.yml", "README.md"))
FIRING = 'count by (alertname, instance) (ALERTS{alertstate="firing"})'
FILE = 'node_textfile_mtime_seconds{file="/counts/radacctd.prom"}'
UNIT = 'node_systemd_unit_state{name="radacctd-%s.service",state="%s"}'
# Each case: the samples of a minute each, of the machines a and b; and at which minute which alerts
# fire, as MACHINE:ALERT. What fires too much fails a case, too. Without samples of its start, a
# machine has been up all the time.
CASES = {
    "a stops; files of others are no concern of ours": (
        [f"a {FILE} 0+60x10 600x50", f"b {FILE} 0+60x60",
         'b node_textfile_mtime_seconds{file="/others/apt.prom"} 0x60'],
        {12: "", 16: "a:Down"}),
    "a is scraped no more": (["a radacctd_start_time_seconds 1x10 stale"], {10: "", 16: "a:Down"}),
    "nothing is scraped": ([f"{it} radacctd_start_time_seconds _x9" for it in "ab"],
                           {1: "", 5: ":Down"}),
    "two starts in an hour are work, three are a fault": (
        ["a radacctd_start_time_seconds 1x9 600x9 1200x9 1800x29",
         "b radacctd_start_time_seconds 1x9 600x9 1200x39"], {40: "a:RestartedOften"}),
    "a has no reports after 26 hours; b has few, also the day before": (
        ["a radacctd_datagrams_total 0+2x1560 3120x300",
         "a radacctd_last_report_time_seconds 0+60x1560 93600x300",
         "b radacctd_datagrams_total 0+0.08x1560 124x300",
         "b radacctd_last_report_time_seconds 0+60x1560 93600x300"],
        {1580: "", 1600: "a:NoReports"}),
    "the book cannot take a report": (
        ['a radacctd_drops_total{reason="13",name="Unavailable"} 0x10 1x30'],
        {10: "", 12: "a:BookUnavailable", 25: ""}),
    "a book that is away, and one that was for a look": (
        ["a radacctd_book_is_there 1x4 0x15", "b radacctd_book_is_there 1x4 0x0 1x14"],
        {4: "", 8: "a:BookAway"}),
    "a wrong secret, and a stranger who tries now and then": (
        ['a radacctd_drops_total{reason="5",name="BadAuthenticator"} 0+2x60',
         'b radacctd_drops_total{reason="1",name="UnknownClient"} 0+0.5x60'],
        {9: "", 30: "a:Drops"}),
    "a configuration that waits, and one that is mended": (
        ["a radacctd_config_is_current 1x9 0x50", "b radacctd_config_is_current 1x9 0x7 1x42"],
        {19: "", 25: "a:ConfigNotCurrent"}),
    "FreeRADIUS ends on a, is restarted on b, and is the site's own on c": (
        [f"a {UNIT % ('front', 'active')} 1x10 0x49", f"b {UNIT % ('front', 'active')} 1x30 0 1x29",
         f"c {UNIT % ('front', 'active')} 0x59",
         'c node_systemd_unit_state{name="freeradius.service",state="active"} 1x59'],
        {9: "", 40: "a:FrontDown"}),
    "units that failed, one each minute anew, and one once": (
        [f"a {UNIT % ('night', 'failed')} 0x60 1x59",
         f"a {UNIT % ('minute', 'failed')} 0x80 1x2 0 1x3 0 1x32",
         f"b {UNIT % ('minute', 'failed')} 0x30 1x1 0x88"],
        {59: "", 70: "a:UnitFailed", 90: "a:UnitFailed a:UnitFailed"}),
    "a small book with less than 1 GiB free, and a large one with a disk of its own": (
        ["a radacctd_book_octets 1000000x60", "a radacctd_log_octets 4000000x60",
         'a node_filesystem_avail_bytes{mountpoint="/"} 900000000x60',
         "b radacctd_book_octets 4900000000x60", "b radacctd_log_octets 100000000x60",
         'b node_filesystem_avail_bytes{mountpoint="/"} 100000x60',
         'b node_filesystem_avail_bytes{mountpoint="/var"} 90000000000x60'],
        {14: "", 20: "a:DiskNearlyFull"}),
}


def series(line):
    """A line of a case as promtool has it."""
    machine, name, more, values = re.fullmatch(r"(\w) (\w+)(?:\{(.*?)\})? (.*)", line).groups()
    labels = ",".join(filter(None, ['job="n"', f'instance="{machine}"', more]))
    return {"series": f"{name}{{{labels}}}", "values": values}


def fires(minute, text):
    found = text.split()
    samples = []
    for it in sorted(set(found)):
        machine, alert = it.split(":")
        more = f',instance="{machine}"' if machine else ""
        samples.append({"labels": f'{{alertname="Radacctd{alert}"{more}}}', "value": found.count(it)})
    return {"expr": FIRING, "eval_time": f"{minute}m", "exp_samples": samples}


def tests():
    """The cases, as JSON, which is YAML too."""
    found = []
    for name, (lines, moments) in CASES.items():
        up = [f"{it} radacctd_start_time_seconds 1x2000" for it in "ab"
              if f"{it} radacctd_start" not in "\n".join(lines)]
        found.append({"name": name, "interval": "1m", "input_series": [*map(series, [*lines, *up])],
                      "promql_expr_test": [fires(*it) for it in moments.items()]})
    return json.dumps({"rule_files": [RULES], "evaluation_interval": "1m", "tests": found})


def text_of(path):
    with open(path, encoding="utf-8") as file:
        return file.read()


def rules(folder):
    """The rules as promtool takes them; each alert fires in a case, and is on the page."""
    status, told = run(["promtool", "check", "rules", RULES])
    check("promtool takes the rules", (status, told if status else ""), (0, ""))
    with open(f"{folder}/cases.yml", "w", encoding="utf-8") as file:
        file.write(tests())
    status, told = run(["promtool", "test", "rules", file.name])
    check(f"the {len(CASES)} cases pass", (status, told if status else ""), (0, ""))
    fired = {f"Radacctd{it}" for _, moments in CASES.values()
             for text in moments.values() for it in re.findall(r":(\w+)", text)}
    alerts = re.findall(r"- alert: (\w+)", text_of(RULES))
    check("each alert fires in one", sorted(fired), sorted(alerts))
    check("there are ten at most", len(alerts) <= 10, True)
    page, about = text_of(PAGE), text_of(RULES)
    check("each is on the page", [it for it in alerts if f"`{it}`" not in page], [])
    places = re.findall(r'(docs/[\w/]+\.md), "([^"]+)"', " ".join(about.split()))
    lost = [it for it in places if f"# {it[1]}\n" not in text_of(f"{ROOT}/{it[0]}")]
    check("each names a heading of a page", (len(places), lost), (len(alerts), []))


def counts(folder):
    """The counts that the program writes."""
    server, path = Server(folder), f"{folder}/radacctd.prom"
    server.init()
    server.start(1 << 62, ["--status", path, "--balances", f"{folder}/balances.csv",
                           "--balances-every", "1"])
    try:
        check("a report is answered", server.radclient(report("Start", "1A-1", 1), retries=10), True)
        server.radclient(report("Start", "1A-2", 1), "wrong")
        for _ in range(120):
            if os.path.exists(path) and 'BadAuthenticator"} 1' in text_of(path):
                break
            time.sleep(0.5)
    finally:
        server.kill()
    return text_of(path)


def main():
    with tempfile.TemporaryDirectory() as folder:
        rules(folder)
        text = counts(folder)
    status, told = run(["promtool", "check", "metrics"], input=text)
    check("promtool takes the counts that the program wrote", (status, told), (0, ""))
    written = set(re.findall(r"(?m)^# TYPE (\S+) ", text))
    named = set(re.findall(r"\bradacctd_\w+", text_of(RULES)))
    check("the program writes each that a rule names", sorted(named - written), [])
    shown = set(re.findall(r"`(radacctd_\w+)`", text_of(f"{ROOT}/docs/reference/metrics.md")))
    check("the page has those that it writes, and no other", sorted(shown ^ written), [])
    print("failed:", served.failures)
    return 1 if served.failures else 0


if __name__ == "__main__":
    sys.exit(main())
