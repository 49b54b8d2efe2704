# SPDX-License-Identifier: MIT OR Apache-2.0
"""Pages printed by the browsers that are installed: Chromium, Firefox, WeasyPrint. Each is a function that prints an HTML file as a PDF file.

    browsers.py BROWSER HTML PDF
"""
import base64
import json
import os
import shutil
import socket
import subprocess
import sys
import tempfile
import time

PAPERS = {"A4": (21.0, 29.7), "letter": (21.59, 27.94)}  # cm
SECONDS = 120


def chromium(path, pdf, _paper="A4"):
    with tempfile.TemporaryDirectory() as profile:
        subprocess.run([shutil.which("chromium"), "--headless", "--no-sandbox", "--disable-gpu", "--disable-dev-shm-usage", f"--user-data-dir={profile}",
                        "--no-pdf-header-footer", f"--print-to-pdf={pdf}", f"file://{path}"], stdout=subprocess.DEVNULL, stderr=subprocess.DEVNULL,
                       timeout=SECONDS, check=True)


def weasyprint(path, pdf, _paper="A4"):
    subprocess.run(["weasyprint", "-q", path, pdf], stdout=subprocess.DEVNULL, stderr=subprocess.DEVNULL, timeout=SECONDS, check=True)


class Marionette:
    """Firefox's own protocol for drivers: messages of JSON, each with its length in front."""

    def __init__(self, port):
        end = time.time() + SECONDS
        while True:
            try:
                self.socket = socket.create_connection(("127.0.0.1", port), timeout=SECONDS)
                break
            except OSError:
                if time.time() > end:
                    raise
                time.sleep(0.2)
        self.number = 0
        self.receive()

    def receive(self):
        length = b""
        while not length.endswith(b":"):
            length += self.socket.recv(1)
        left, parts = int(length[:-1]), []
        while left:
            parts.append(self.socket.recv(left))
            left -= len(parts[-1])
        return json.loads(b"".join(parts))

    def ask(self, command, **parameters):
        self.number += 1
        message = json.dumps([0, self.number, command, parameters]).encode()
        self.socket.sendall(b"%d:%s" % (len(message), message))
        _, _, error, answer = self.receive()
        if error:
            raise RuntimeError(f"{command}: {error}")
        return answer


def firefox(path, pdf, paper="A4"):
    with tempfile.TemporaryDirectory() as profile, socket.socket() as free:
        free.bind(("127.0.0.1", 0))
        port = free.getsockname()[1]
        free.close()
        with open(f"{profile}/user.js", "w", encoding="ascii") as preferences:
            for name, value in (("marionette.port", port), ("app.update.auto", "false"), ("browser.shell.checkDefaultBrowser", "false")):
                preferences.write(f'user_pref("{name}", {value});\n')
        environment = dict(os.environ, HOME=profile, MOZ_HEADLESS="1")
        with subprocess.Popen(["firefox-esr", "--headless", "--marionette", "--no-remote", "--profile", profile], stdout=subprocess.DEVNULL,
                              stderr=subprocess.DEVNULL, env=environment) as child:
            try:
                driver = Marionette(port)
                driver.ask("WebDriver:NewSession")
                driver.ask("WebDriver:Navigate", url=f"file://{path}")
                wide, high = PAPERS[paper]
                answer = driver.ask("WebDriver:Print", page={"width": wide, "height": high}, margin={"top": 0, "bottom": 0, "left": 0, "right": 0},
                                    shrinkToFit=False, background=False)
                with open(pdf, "wb") as out:
                    out.write(base64.b64decode(answer["value"]))
            finally:
                child.terminate()


BROWSERS = {"chromium": chromium, "firefox-esr": firefox, "weasyprint": weasyprint}


if __name__ == "__main__":
    BROWSERS[sys.argv[1]](os.path.abspath(sys.argv[2]), sys.argv[3])
