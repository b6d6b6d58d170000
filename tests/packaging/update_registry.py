#!/usr/bin/env python3
"""Tests packaging/update-registry.sh, and the same by hand as the manual has it, with a server of their own on this machine.

Usage: tests/packaging/update_registry.py PROGRAM

In each case FILE has to be the new registry whole, or just what it was before; and no other file is left in its folder.
"""

import os
import re
import signal
import subprocess
import sys
import tempfile
import threading
import time
import unittest
from http.server import BaseHTTPRequestHandler, ThreadingHTTPServer
from pathlib import Path

ROOT = Path(__file__).resolve().parents[2]
SCRIPT = ROOT / "packaging" / "update-registry.sh"
OLD = (ROOT / "examples" / "iana-2025-05-15.txt").read_bytes()
PROGRAM = ""
WAITING = threading.Event()


def dated(text, date):
    """The registry with another date."""
    return text.replace(b"File-Date: 2025-05-15", b"File-Date: " + date, 1)


MORE = OLD + b"%%\nType: language\nSubtag: qzz\n"
NEW = dated(MORE, b"2025-08-25")
# What is served: a status, a body, and the length that is told of it.
SERVED = {
    "/new": (200, NEW, len(NEW)),
    "/same": (200, OLD, len(OLD)),
    "/cut-in-transit": (200, NEW[:200_000], len(NEW)),
    "/page": (200, b"<!DOCTYPE html>\n<html><body>Log in</body></html>\n", 47),
    "/empty": (200, b"", 0),
    "/no-date": (200, NEW.split(b"\n", 1)[1], len(NEW.split(b"\n", 1)[1])),
    "/older": (200, dated(MORE, b"2025-05-14"), len(MORE)),
    "/missing": (404, b"not here\n", 9),
    "/broken": (500, b"broken\n", 7),
    "/circle": (200, NEW + b"Preferred-Value: qzz\n", len(NEW) + 21),
}


class Handler(BaseHTTPRequestHandler):
    def do_GET(self):
        if self.path == "/moved":
            self.send_response(301)
            self.send_header("Location", "/new")
            self.end_headers()
            return
        if self.path == "/slow":
            self.send_response(200)
            self.send_header("Content-Length", str(len(NEW)))
            self.end_headers()
            self.wfile.write(NEW[:1000])
            self.wfile.flush()
            WAITING.set()
            time.sleep(20)
            return
        if self.path.startswith("/cut/"):
            body = NEW[:int(self.path[5:])]
            status, length = 200, len(body)
        else:
            status, body, length = SERVED[self.path]
        self.send_response(status)
        self.send_header("Content-Length", str(length))
        self.end_headers()
        self.wfile.write(body)

    def log_message(self, *_):
        pass


class Update(unittest.TestCase):
    @classmethod
    def setUpClass(cls):
        cls.server = ThreadingHTTPServer(("127.0.0.1", 0), Handler)
        cls.server.daemon_threads = True
        threading.Thread(target=cls.server.serve_forever, daemon=True).start()
        cls.url = f"http://127.0.0.1:{cls.server.server_port}"

    @classmethod
    def tearDownClass(cls):
        cls.server.shutdown()
        cls.server.server_close()

    def setUp(self):
        folder = tempfile.TemporaryDirectory()
        self.addCleanup(folder.cleanup)
        self.folder = Path(folder.name, "a folder")
        self.folder.mkdir()
        self.file = self.folder / "registry.txt"
        self.file.write_bytes(OLD)

    def surroundings(self, url):
        return {**os.environ, "LANGTAG": PROGRAM, "LANGTAG_REGISTRY_URL": url}

    def update(self, path, *words, env=None):
        """Runs the script on what is served at a path: its status, and what it says."""
        surroundings = self.surroundings(self.url + path) | (env or {})
        run = subprocess.run([SCRIPT, *(words or [self.file])], env=surroundings, capture_output=True, text=True, check=False)
        self.said = run.stdout + run.stderr
        return run.returncode

    def stays(self, path, status, reason, **more):
        """The script refuses, says why, and leaves all as it was."""
        before = self.file.stat()
        self.assertEqual(self.update(path, **more), status, self.said)
        self.assertRegex(self.said, reason)
        self.assertEqual(self.file.read_bytes(), OLD)
        self.assertEqual(self.file.stat().st_ino, before.st_ino)
        self.alone()

    def passes(self, *words):
        return subprocess.run([PROGRAM, *words], stdout=subprocess.PIPE, check=False).returncode == 0

    def alone(self):
        self.assertEqual([path.name for path in self.folder.iterdir()], ["registry.txt"])

    def test_newer(self):
        with open(self.file, "rb") as reader:
            self.assertEqual(self.update("/new"), 0, self.said)
            self.assertEqual(reader.read(), OLD)
        self.assertEqual(self.said, f"{self.file}: 2025-05-15 -> 2025-08-25\n")
        self.assertEqual(self.file.read_bytes(), NEW)
        self.assertEqual(self.file.stat().st_mode & 0o777, 0o644)
        self.alone()
        self.assertEqual(self.update("/same"), 2)
        self.assertEqual(self.file.read_bytes(), NEW)

    def test_newer_elsewhere(self):
        self.assertEqual(self.update("/moved"), 0, self.said)
        self.assertEqual(self.file.read_bytes(), NEW)

    def test_same(self):
        before = self.file.stat().st_ino
        self.assertEqual(self.update("/same"), 0)
        self.assertEqual(self.said, f"{self.file} is the newest: 2025-05-15\n")
        self.assertEqual(self.file.stat().st_ino, before)
        self.alone()

    def test_first(self):
        self.file.unlink()
        installed = self.folder.parent / "installed.txt"
        installed.write_bytes(OLD)
        self.assertEqual(self.update("/cut/150000", self.file, installed), 2)
        self.assertEqual(self.update("/new", self.file, self.folder / "none"), 4)
        self.assertEqual(list(self.folder.iterdir()), [])
        self.assertEqual(self.update("/new", self.file, installed), 0, self.said)
        self.assertEqual(self.file.read_bytes(), NEW)
        self.assertEqual(installed.read_bytes(), OLD)
        self.alone()

    def test_link(self):
        link = self.folder.parent / "link"
        link.symlink_to(self.file)
        self.assertEqual(self.update("/new", link), 0, self.said)
        self.assertTrue(link.is_symlink())
        self.assertEqual(self.file.read_bytes(), NEW)

    def test_cut(self):
        """A file that is cut between two records may pass the check, and even the upgrade; the older registry tells."""
        pass_the_check = pass_the_upgrade = 0
        ends = [found.start() + 1 for found in re.finditer(rb"\n%%\n", NEW)]
        for length in [*ends[100::700], ends[-2], len(NEW) // 2]:
            cut = self.folder.parent / "cut"
            cut.write_bytes(NEW[:length])
            pass_the_check += self.passes("check", cut)
            pass_the_upgrade += self.passes("upgrade", self.file, cut)
            self.stays(f"/cut/{length}", 2, "refused: ")
        self.assertGreater(pass_the_check, 1)
        self.assertGreater(pass_the_upgrade, 0)

    def test_refused(self):
        self.stays("/cut-in-transit", 1, "nothing fetched")
        self.stays("/page", 2, "refused: jar BadLine line 1")
        self.stays("/empty", 2, "refused: no File-Date")
        self.stays("/no-date", 2, "refused: ")
        self.stays("/older", 2, "refused: of 2025-05-14, which is before 2025-05-15")
        self.stays("/circle", 2, "refused: check C3 record ")
        self.stays("/missing", 1, "nothing fetched")
        self.stays("/broken", 1, "nothing fetched")

    def test_no_server(self):
        self.stays("", 1, "nothing fetched", env={"LANGTAG_REGISTRY_URL": "http://127.0.0.1:1/"})
        self.stays("", 1, "nothing fetched", env={"LANGTAG_REGISTRY_URL": f"file://{SCRIPT}"})

    def test_no_tools(self):
        self.stays("/new", 4, "can't|not found", env={"LANGTAG": "/no/such/program"})
        self.stays("/new", 4, "no-program", env={"LANGTAG": "no-program"})

    def test_no_room(self):
        """The file system takes no more than a block of the new file."""
        full = f'ulimit -f 8; exec "{SCRIPT}" "$0"'
        run = subprocess.run(["sh", "-c", full, self.file], env=self.surroundings(self.url + "/new"), capture_output=True, check=False)
        self.assertEqual(run.returncode, 1)
        self.assertEqual(self.file.read_bytes(), OLD)
        self.alone()

    def test_ended(self):
        """The run is ended while it fetches."""
        WAITING.clear()
        run = subprocess.Popen([SCRIPT, self.file], env=self.surroundings(self.url + "/slow"), stderr=subprocess.DEVNULL, start_new_session=True)
        self.assertTrue(WAITING.wait(10))
        os.killpg(run.pid, signal.SIGTERM)
        self.assertEqual(run.wait(10), 143)
        self.assertEqual(self.file.read_bytes(), OLD)
        self.alone()

    def test_words(self):
        for words in [[""], [self.file, self.file, self.file]]:
            self.assertEqual(self.update("/new", *words), 3)
            self.assertRegex(self.said, "^usage: ")
        for file in [self.folder, self.folder / "no" / "registry.txt"]:
            self.assertEqual(self.update("/new", file), 4)
        self.assertEqual(self.file.read_bytes(), OLD)
        self.alone()

    def test_by_hand(self):
        """The recipe of README, of the manual and of the page on updates, with this server in the place of IANA's."""
        pages = {}
        for page in ["README.md", "docs/langtag.1", "docs/updates.md"]:
            text = (ROOT / page).read_text(encoding="utf-8").replace("\\-", "-").replace("\\e", "\\")
            found = re.search(r"^ *curl -f.*\n(?: *(?:langtag|mv) .*\n)*", text, re.M)
            self.assertIsNotNone(found, page)
            pages[page] = " ".join(found.group().replace("\\\n", " ").split())
        self.assertEqual(len(set(pages.values())), 1, pages)
        recipe = pages["docs/updates.md"]
        self.assertIn("https://www.iana.org/assignments/language-subtag-registry/language-subtag-registry", recipe)
        tools = self.folder.parent / "tools"
        tools.mkdir()
        (tools / "langtag").symlink_to(PROGRAM)
        env = os.environ | {"PATH": f"{tools}:{os.environ['PATH']}"}
        for path, wanted in [("/page", OLD), ("/missing", OLD), ("/cut/150000", OLD), ("/older", NEW), ("/new", NEW)]:
            self.file.write_bytes(OLD)
            here = re.sub(r"https://\S+", self.url + path, recipe)
            ended = subprocess.run(["sh", "-c", here], cwd=self.folder, env=env, capture_output=True, check=False).returncode
            with self.subTest(path):
                # by hand nobody looks at the date
                self.assertEqual(ended == 0, wanted == NEW)
                self.assertEqual(self.file.read_bytes() == OLD, wanted == OLD)

    def test_timer_and_cron(self):
        """What systemd and cron run is the script, by the folders into which it is installed."""
        place = self.folder.parent / "installed"
        env = os.environ | {"DESTDIR": "", "PREFIX": str(place)}
        subprocess.run([ROOT / "packaging" / "install.sh", "install", "program"], env=env, check=True)
        cron = (place / "share/doc/langtag/langtag-registry.cron").read_text().splitlines()[-1]
        fields = cron.split(maxsplit=6)
        self.assertEqual(fields[:6], ["37", "4", "2", "*", "*", "root"])
        service = (place / "lib/systemd/system/langtag-registry.service").read_text()
        begins = re.search(r"^ExecStart=(.*)$", service, re.M).group(1)
        program = re.search(r"^Environment=(.*)$", service, re.M).group(1)
        for command in [fields[6], f"{program} {begins}"]:
            self.file.write_bytes(OLD)
            command = command.replace("/var/lib/langtag/registry.txt", "registry.txt")
            run = subprocess.run(["sh", "-c", command], cwd=self.folder, env=self.surroundings(self.url + "/new"), capture_output=True, check=False)
            self.assertEqual((run.returncode, run.stderr), (0, b""))
            self.assertEqual(self.file.read_bytes(), NEW)
        timer = (place / "lib/systemd/system/langtag-registry.timer").read_text()
        self.assertIn("OnCalendar=monthly", timer)


if __name__ == "__main__":
    if len(sys.argv) != 2:
        sys.exit(__doc__)
    PROGRAM = str(Path(sys.argv.pop()).resolve())
    unittest.main()
