"""nginx with the configuration of site/core/nginx, on loopback, with paths and ports of a test."""

import os
import re
import signal
import socket
import subprocess
import time

from served import ROOT, check, free_port

MAIN = """
{user}
worker_processes 1;
pid {folder}/nginx.pid;
events {{ worker_connections 256; }}
http {{
    include /etc/nginx/mime.types;
    client_body_temp_path {folder}/temp/body;
    proxy_temp_path {folder}/temp/proxy;
    fastcgi_temp_path {folder}/temp/fastcgi;
    uwsgi_temp_path {folder}/temp/uwsgi;
    scgi_temp_path {folder}/temp/scgi;
    include {folder}/radacctd.conf;
}}
"""


class Proxy:
    """One nginx before the pages' service at a socket."""

    def __init__(self, folder, service):
        self.folder, self.logs, self.process = folder, os.path.join(folder, "log"), None
        self.port, self.plain = (free_port(socket.SOCK_STREAM) for _ in range(2))
        for name in ("", "log", "temp"):
            os.mkdir(os.path.join(folder, name))
        with open(os.path.join(ROOT, "site/core/nginx/radacctd.conf"), encoding="utf-8") as file:
            text = file.read()
        for old, new in (
            ("listen 443 ssl", f"listen 127.0.0.1:{self.port} ssl"),
            ("listen 80;", f"listen 127.0.0.1:{self.plain};"),
            ("/etc/ssl/radacctd.pem", f"{folder}/cert.pem"),
            ("/etc/ssl/private/radacctd.key", f"{folder}/cert.key"),
            ("/run/radacctd-site.socket", service)):
            if old not in text:
                raise SystemExit(f"nginx' file has no longer: {old}")
            text = text.replace(old, new)
        user = "user root;" if os.getuid() == 0 else ""
        for name, found in (("radacctd.conf", text),
                            ("nginx.conf", MAIN.format(folder=folder, user=user))):
            with open(os.path.join(folder, name), "w", encoding="utf-8") as file:
                file.write(found)
        words = ["openssl", "req", "-x509", "-newkey", "rsa:2048", "-nodes", "-days", "2", "-subj",
                 "/CN=accounts.example.org", "-addext", "subjectAltName=DNS:localhost", "-keyout",
                 f"{folder}/cert.key", "-out", f"{folder}/cert.pem"]
        subprocess.run(words, check=True, capture_output=True)

    def words(self, *more):
        return ["nginx", "-e", f"{self.logs}/start.log", "-c", f"{self.folder}/nginx.conf", *more]

    def start(self):
        done = subprocess.run(self.words("-t"), capture_output=True, text=True)
        check("nginx -t takes its configuration", (done.returncode, done.stderr * done.returncode),
              (0, ""))
        self.process = subprocess.Popen(self.words("-g", "daemon off;"))
        for _ in range(100):
            try:
                socket.create_connection(("127.0.0.1", self.port), timeout=1).close()
                return self
            except OSError:
                time.sleep(0.05)
        raise SystemExit("nginx did not start")

    def end(self):
        if self.process:
            self.process.send_signal(signal.SIGTERM)
            self.process.wait(timeout=20)
        self.process = None

    def url(self, path=""):
        return f"https://localhost:{self.port}{path}"

    def curl(self, path, *more, origin="127.0.0.1"):
        """The status, the head and the body of an answer, as curl got them from an address."""
        words = ["curl", "-sk", "-i", "--interface", origin, self.url(path), *more]
        text = subprocess.run(words, capture_output=True, text=True).stdout
        head, _, rest = text.replace("\r", "").partition("\n\n")
        found = re.match(r"HTTP/[0-9.]+ ([0-9]+)", head)
        return int(found.group(1)) if found else 0, head.lower(), rest

    def guest(self, key, **how):
        """The status and the text of the guests' page for the key of a card."""
        status, _, text = self.curl("/", "-H", f"Cookie: __Host-guest={key}", **how)
        return status, text

    def many(self, count, path, origin):
        """The statuses of a request that one curl sends so often, from an address."""
        words = ["curl", "-sk", "--interface", origin, "-w", "%{http_code} "]
        for _ in range(count):
            words += ["-o", os.devnull, self.url(path)]
        found = subprocess.run(words, capture_output=True, text=True).stdout
        return [int(it) for it in found.split()]
