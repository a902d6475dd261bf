#!/usr/bin/env python3
"""Drives the page in Firefox, from the disk:

    web/drive_firefox.py FIREFOX

Every example gives its stored text, a search is stopped, goes on after a reload and gives the same text, and a certificate is checked. Firefox is spoken to by Marionette, which it
has for this: messages in JSON over a connection to this machine, each with its length before it. The last line is 'N passed, M failed'.
"""
import json
import os
import socket
import subprocess
import sys
import tempfile
import time
from pathlib import Path

TOP = Path(__file__).resolve().parent.parent
ENDED = "/^(Done|A fault|The certificate|There is|The program|The script)/.test(document.getElementById('status').textContent)"
TEXT = "document.getElementById('text').textContent"
# three searches, so that it is stopped before the end on any machine
SEARCH = "C := BCHCode(63,11,GF(2));\n" + 3 * "MinimumDistance(C);\n"
PREFERENCES = {"marionette.port": 0, "browser.shell.checkDefaultBrowser": False, "datareporting.policy.dataSubmissionEnabled": False, "app.update.enabled": False,
               "toolkit.telemetry.reportingpolicy.firstRun": False, "browser.startup.homepage_override.mstone": "ignore", "network.captive-portal-service.enabled": False,
               "network.connectivity-service.enabled": False, "browser.safebrowsing.downloads.remote.enabled": False}


class Firefox:
    def __init__(self, program, folder):
        lines = [f"user_pref({json.dumps(name)}, {json.dumps(value)});\n" for name, value in PREFERENCES.items()]
        Path(folder, "user.js").write_text("".join(lines), encoding="utf-8")
        words = [program, "--headless", "--marionette", "--no-remote", "--profile", folder]
        self.process = subprocess.Popen(words, stdout=subprocess.DEVNULL, stderr=subprocess.DEVNULL, env={**os.environ, "HOME": folder, "MOZ_CRASHREPORTER_DISABLE": "1"})
        self.number, self.rest = 0, b""
        self.connection = self.connected(Path(folder, "MarionetteActivePort"))
        self.read()  # what it is
        self.send("WebDriver:NewSession", capabilities={"alwaysMatch": {"unhandledPromptBehavior": "accept"}})

    def connected(self, file):
        end = time.monotonic() + 90
        while time.monotonic() < end:
            try:
                return socket.create_connection(("127.0.0.1", int(file.read_text())), 90)
            except (OSError, ValueError):
                time.sleep(0.2)
        raise RuntimeError("Firefox did not start")

    def read(self):
        while b":" not in self.rest:
            self.rest += self.connection.recv(65536)
        length, self.rest = self.rest.split(b":", 1)
        while len(self.rest) < int(length):
            self.rest += self.connection.recv(65536)
        message, self.rest = self.rest[:int(length)], self.rest[int(length):]
        return json.loads(message)

    def send(self, command, **words):
        self.number += 1
        message = json.dumps([0, self.number, command, words]).encode()
        self.connection.sendall(str(len(message)).encode() + b":" + message)
        error, result = self.read()[2:]
        if error:
            raise RuntimeError(error["message"])
        return result

    def evaluate(self, expression):
        return self.send("WebDriver:ExecuteScript", script=f"return {expression}", args=[])["value"]

    def until(self, expression):
        end = time.monotonic() + 60
        while not self.evaluate(f"Boolean({expression})"):
            if time.monotonic() > end:
                raise RuntimeError(f"this didn't come: {expression}")
            time.sleep(0.05)

    def go(self, address):
        self.send("WebDriver:Navigate", url=address)
        self.until("document.documentElement.dataset.ready === 'yes'")

    def press(self, name):
        self.evaluate(f"document.getElementById('{name}').click()")

    def run(self, script):
        self.evaluate(f"(() => {{ const field = document.getElementById('field'); field.value = {json.dumps(script)}; field.dispatchEvent(new Event('input')); document.getElementById('status').textContent = ''; document.getElementById('run').click(); }})()")

    def close(self):
        try:
            self.send("Marionette:Quit", flags=["eForceQuit"])
            self.process.wait(20)
        except (OSError, RuntimeError, ValueError, subprocess.TimeoutExpired):
            self.process.kill()
            self.process.wait()


def examples(firefox):
    for script in sorted(TOP.glob("examples/*.codes")):
        firefox.run(script.read_text(encoding="utf-8"))
        firefox.until(ENDED)
        if firefox.evaluate(TEXT) != script.with_suffix(".out").read_text(encoding="utf-8"):
            raise RuntimeError(f"{script.name} gives another text")


def stopped(firefox):
    firefox.run(SEARCH)
    firefox.until(ENDED)
    wanted = firefox.evaluate(TEXT)
    firefox.run(SEARCH)
    firefox.until("document.querySelector('#search svg')")
    firefox.press("stop")
    firefox.evaluate("document.documentElement.dataset.ready = 'no'")
    firefox.send("WebDriver:Refresh")
    firefox.until("document.documentElement.dataset.ready === 'yes' && !document.getElementById('resume').hidden")
    firefox.press("resume")
    firefox.until(ENDED)
    if firefox.evaluate(TEXT) != wanted or not wanted.startswith("distance 11 "):
        raise RuntimeError(f"another text: {firefox.evaluate(TEXT)}")


def certificate(firefox):
    firefox.run("Certificate(HammingCode(3, GF(2)));")
    firefox.until(ENDED)
    firefox.evaluate("document.querySelector('#answers .check').click()")
    firefox.until("/✓ accepted distance 3/.test(document.querySelector('#answers .certificate [role=status]').textContent)")


def main():
    passed = failed = 0
    with tempfile.TemporaryDirectory(ignore_cleanup_errors=True) as folder:
        firefox = Firefox(sys.argv[1], folder)
        try:
            for part in (examples, stopped, certificate):
                try:
                    firefox.go((TOP / "web/index.html").as_uri())
                    part(firefox)
                    passed += 1
                except RuntimeError as wrong:
                    failed += 1
                    print(f"failed: the page in Firefox: {part.__name__}: {wrong}")
        finally:
            firefox.close()
    print(f"{passed} passed, {failed} failed")
    return 1 if failed else 0


if __name__ == "__main__":
    sys.exit(main())
