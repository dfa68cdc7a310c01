"""A guest of a site that `radacctl setup` made, at a real access server: hostapd on a wire.

hostapd counts no octets there. So the guest's money ends by a report of another access server, as
it would if two devices shared an account; hostapd's next report then brings the cut-off.
"""

import os
import subprocess
import tempfile
import time

from served import check, until

ADDRESS, STATION = "127.0.0.20", "radacctd-sta"
HOSTAPD = """
interface=radacctd-ap
driver=wired
logger_stdout=-1
logger_stdout_level=0
ieee8021x=1
use_pae_group_addr=1
own_ip_addr={address}
nas_identifier=hall
radius_client_addr={address}
auth_server_addr=127.0.0.1
auth_server_port=1812
auth_server_shared_secret={secret}
acct_server_addr=127.0.0.1
acct_server_port=1813
acct_server_shared_secret={secret}
radius_acct_interim_interval=4
radius_das_port=3799
radius_das_client=127.0.0.1 {secret}
"""
SUPPLICANT = """
ap_scan=0
network={{
	key_mgmt=IEEE8021X
	eap=PEAP
	phase2="auth=MSCHAPV2"
	identity="{name}"
	password="{password}"
	eapol_flags=0
}}
"""


class Wire:
    """A wire of the machine, at whose end is a station, with hostapd and a supplicant."""

    def __init__(self, box, secret, name, password):
        self.box, self.started = box, []
        self.folder = tempfile.TemporaryDirectory()
        self.write("hostapd", HOSTAPD.format(address=ADDRESS, secret=secret))
        self.write("supplicant", SUPPLICANT.format(name=name, password=password))

    def write(self, name, text):
        with open(os.path.join(self.folder.name, name), "w", encoding="utf-8") as file:
            file.write(text)

    def __enter__(self):
        subprocess.run(["ip", "netns", "add", STATION], check=True)
        link = f"ip link add radacctd-ap type veth peer name {STATION} netns {STATION}"
        for line in (link, "ip link set radacctd-ap up",
                     f"ip -n {STATION} link set {STATION} up"):
            status, said = self.box.beside(line.split())
            if status:
                raise SystemExit(f"{line}: {said}")
        inside = ["nsenter", "-t", str(self.box.leader()), "-n"]
        # Line by line: else its log lags behind by some minutes.
        hostapd = ["stdbuf", "-oL", "hostapd", "-d", f"{self.folder.name}/hostapd"]
        self.start("hostapd.log", [*inside, *hostapd])
        time.sleep(2)
        words = ["ip", "netns", "exec", STATION, "wpa_supplicant", "-D", "wired", "-i", STATION]
        self.start("supplicant.log", [*words, "-c", f"{self.folder.name}/supplicant"])
        return self

    def start(self, name, words):
        with open(os.path.join(self.folder.name, name), "wb") as file:
            self.started.append(subprocess.Popen(words, stdout=file, stderr=subprocess.STDOUT))

    def log(self):
        with open(os.path.join(self.folder.name, "hostapd.log"), encoding="utf-8") as file:
            return file.read()

    def __exit__(self, *_):
        for process in self.started:
            process.kill()
            process.wait()
        subprocess.run(["ip", "netns", "del", STATION], check=False)
        self.folder.cleanup()


def try_it(box, secret, name, password, spend):
    """The guest logs in by 802.1X, and is disconnected once the money is gone."""
    with Wire(box, secret, name, password) as wire:
        until(lambda: "starting accounting session" in wire.log(), 60, 0.5)
        found = [it in wire.log() for it in ("authorizing port", "starting accounting")]
        check("a guest logs in through hostapd, which reports the session", found, [True, True])
        spend()
        found = until(lambda: "Acct-Session-Id match" in wire.log(), 90, 0.5)
        check("once the money is gone, hostapd is told to end that session", found, True)
