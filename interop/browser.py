"""Debian's Chromium, driven through chromedriver by WebDriver, and checks of a page."""

import base64
import json
import os
import signal
import socket
import subprocess
import time
import urllib.error
import urllib.request

from served import free_port

# Each text of the page whose contrast with its background is below 4.5, by WCAG 2.1.
CONTRAST = r"""
const parts = (colour) => colour.match(/[\d.]+/g).map(Number);
const light = (c) => { const f = c.slice(0, 3).map((v) => v / 255)
  .map((v) => v <= .03928 ? v / 12.92 : ((v + .055) / 1.055) ** 2.4);
  return .2126 * f[0] + .7152 * f[1] + .0722 * f[2]; };
const behind = (it) => { for (; it; it = it.parentElement) {
  const c = parts(getComputedStyle(it).backgroundColor);
  if (c.length < 4 || c[3] > 0) return c; } return [255, 255, 255]; };
const bad = []; let tested = 0;
for (const it of document.querySelectorAll("body *")) {
  const own = [...it.childNodes].some((n) => n.nodeType === 3 && n.textContent.trim());
  if (!own || !it.getClientRects().length || it.closest("script,datalist,option")) continue;
  const two = [light(parts(getComputedStyle(it).color)), light(behind(it))].sort((a, b) => b - a);
  const ratio = (two[0] + .05) / (two[1] + .05);
  tested += 1;
  if (ratio < 4.5) bad.push([it.tagName, it.textContent.trim().slice(0, 20), ratio].join(" "));
}
return [tested, bad];
"""


class Browser:
    """One window of Chromium with a profile of its own; acts of WebDriver and of its debugger."""

    def __init__(self, folder):
        self.profile = os.path.join(folder, "profile")
        self.port = free_port(socket.SOCK_STREAM)
        self.driver = None
        self.session = None

    def open(self, language="en"):
        os.makedirs(self.profile, exist_ok=True)
        with open(os.path.join(self.profile, "..", "chromedriver.log"), "wb") as log:
            self.driver = subprocess.Popen(["chromedriver", f"--port={self.port}"], stdout=log,
                                           stderr=log, start_new_session=True)
        flags = ["--headless=new", "--no-sandbox", "--disable-gpu", "--disable-dev-shm-usage"]
        flags += [f"--user-data-dir={self.profile}", f"--lang={language}"]
        flags += ["--window-size=1000,800"]
        options = {"args": flags, "prefs": {"intl.accept_languages": language}}
        always = {"acceptInsecureCerts": True, "goog:chromeOptions": options}
        for _ in range(100):
            try:
                wanted = {"capabilities": {"alwaysMatch": always}}
                self.session = self.call("POST", "/session", wanted, "")["sessionId"]
                return self
            except OSError:
                time.sleep(0.1)
        raise SystemExit("chromedriver gives no session")

    def call(self, method, path, body=None, base=None):
        base = f"/session/{self.session}" if base is None else base
        request = urllib.request.Request(
            f"http://127.0.0.1:{self.port}{base}{path}", method=method,
            data=None if body is None else json.dumps(body).encode(),
            headers={"Content-Type": "application/json"})
        try:
            with urllib.request.urlopen(request, timeout=60) as answer:
                return json.load(answer)["value"]
        except urllib.error.HTTPError as fault:
            raise RuntimeError(fault.read().decode()[:500]) from None

    def close(self):
        """Closes the window as a person does; the profile stays."""
        if self.session:
            self.call("DELETE", "")
        self.session = None
        if self.driver:
            os.killpg(self.driver.pid, signal.SIGTERM)
            self.driver.wait(timeout=20)
        self.driver = None

    def kill(self):
        """Ends the driver, and the browser with it."""
        if self.driver:
            os.killpg(self.driver.pid, signal.SIGKILL)
            self.driver.wait(timeout=20)
        self.session = self.driver = None

    def go(self, url):
        # A new document each time, even if only the fragment differs.
        self.call("POST", "/url", {"url": "about:blank"})
        self.call("POST", "/url", {"url": url})

    def js(self, script, *words):
        return self.call("POST", "/execute/sync", {"script": script, "args": list(words)})

    def debug(self, command, **more):
        return self.call("POST", "/goog/cdp/execute", {"cmd": command, "params": more})

    def text(self, selector="body"):
        """What a person sees of an element."""
        found = self.js("return document.querySelector(arguments[0]).innerText", selector)
        return found.replace("\u00a0", " ").replace("\u202f", " ")

    def shows(self, wanted, selector="body", seconds=12):
        """Waits until a text shows, and says whether it does."""
        for _ in range(seconds * 10):
            if wanted in self.text(selector):
                return True
            time.sleep(0.1)
        return False

    def keys(self, text):
        """Types at the keyboard."""
        acts = [{"type": kind, "value": it} for it in text for kind in ("keyDown", "keyUp")]
        source = {"type": "key", "id": "keyboard", "actions": acts}
        self.call("POST", "/actions", {"actions": [source]})

    def click(self, selector):
        self.js("document.querySelector(arguments[0]).click()", selector)

    def submit(self, values):
        """Types into the form of a page, and submits it."""
        self.js(
            "for (const [id, value] of Object.entries(arguments[0])) {"
            "const it = document.getElementById(id); it.value = value;"
            "it.dispatchEvent(new Event('input', { bubbles: true })); }"
            "document.getElementById('form').requestSubmit()", values)

    def size(self, width, height, scale=1):
        self.debug("Emulation.setDeviceMetricsOverride", width=width, height=height,
                   deviceScaleFactor=scale, mobile=width < 500)

    def overflow(self):
        """By how many pixels the page is wider than the window."""
        return self.js("return document.documentElement.scrollWidth - window.innerWidth")

    def theme(self, name):
        feature = {"name": "prefers-color-scheme", "value": name}
        self.debug("Emulation.setEmulatedMedia", features=[feature])

    def poor_contrast(self):
        """How many texts were looked at, and those that are hard to read."""
        return self.js(CONTRAST)

    def nameless(self):
        """The controls that a screen reader would read without a name."""
        self.debug("Accessibility.enable")
        found = []
        roles = ("textbox", "button", "combobox", "table", "region", "heading", "searchbox")
        for it in self.debug("Accessibility.getFullAXTree")["nodes"]:
            role = it.get("role", {}).get("value")
            name = it.get("name", {}).get("value", "")
            if role in roles and not it.get("ignored") and not name.strip():
                found.append(role)
        return found

    def picture(self, path):
        with open(path, "wb") as file:
            file.write(base64.b64decode(self.call("GET", "/screenshot")))


def holding(folder, secrets):
    """The files of a folder that have one of these texts, as octets or in 16-bit letters."""
    wanted = [it.encode() for it in secrets] + [it.encode("utf-16-le") for it in secrets]
    found = []
    for place, _, names in os.walk(folder):
        for name in names:
            path = os.path.join(place, name)
            if not os.path.isfile(path):
                continue
            with open(path, "rb") as file:
                text = file.read()
            if any(it in text for it in wanted):
                found.append(os.path.relpath(path, folder))
    return sorted(found)
