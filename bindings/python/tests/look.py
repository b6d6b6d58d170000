"""The report in Chromium, at two widths, light and dark: what overflows, contrast, what is fetched. Arguments: a registry, and a folder
that gets pictures. It needs `chromium`."""
import shutil
import signal
import subprocess
import sys
import tempfile
import unittest
from pathlib import Path

from command import COMMAND

sys.path.insert(0, str(Path(__file__).parents[3] / "tests/packaging"))
from browsers import CLOSE, CONTRAST, Chromium, wait  # noqa: E402

TAGS = ["zh-yue", "YUE", "en_US", "", "de-u", "ja-heploc-alalc97", "de-DE-x-a-rather-long-tag-of-private-use-as-some-have-it", "yue", "I-KLINGON",
        "x y", "ar", "de", "de"]


class Looks(unittest.TestCase):
    def test_the_report(self):
        # The browser writes into this folder until it ends, and it ends first.
        folder = Path(self.enterContext(tempfile.TemporaryDirectory(ignore_cleanup_errors=True)))
        report = folder / "report.html"
        subprocess.run([*COMMAND, "report", REGISTRY, "tag", "-o", report], input="\n".join(["tag", *TAGS]).encode(), check=True)
        browser = Chromium(folder)
        self.addCleanup(browser.end)
        browser.go(report.as_uri())
        wait(browser, "document.readyState === 'complete' && document.querySelector('h1')?.textContent")
        for width in (320, 1280):
            for dark in (False, True):
                browser.look(width, dark)
                Path(PICTURES, f"report-{width}-{'dark' if dark else 'light'}.png").write_bytes(browser.picture())
                self.assertEqual(browser.run("return document.documentElement.scrollWidth"), width)
                self.assertEqual(browser.run(f"return [...{CONTRAST}, ...{CLOSE}]"), [])
        self.assertEqual(browser.messages(), [])


REGISTRY, PICTURES = sys.argv[1:3]
if __name__ == "__main__":
    if not shutil.which("chromium"):
        sys.exit("there is no chromium here")
    # a browser that answers nothing ends this
    signal.alarm(300)
    unittest.main(argv=sys.argv[:1])
