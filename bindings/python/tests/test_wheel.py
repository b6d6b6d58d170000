"""The wheel and the archive of sources. It needs the library that `make lib` built, or BCP47_LIBRARY that names it."""
import base64
import hashlib
import os
import platform
import re
import subprocess
import sys
import tarfile
import tempfile
import unittest
import zipfile
from pathlib import Path

os.environ.update(SOURCE_DATE_EPOCH="1700000000", CFLAGS="-O0")
sys.path.insert(0, str(Path(__file__).resolve().parent.parent))
import wheel_of_package as package

NAMES = ("__init__.py", "__main__.py", "_bcp47.pyi", "advice.py", "codes.py", "lines.py", "numbers.py", "pages.py", "py.typed", "report.py")


class Wheels(unittest.TestCase):
    def setUp(self):
        self.folder = tempfile.TemporaryDirectory()
        self.addCleanup(self.folder.cleanup)
        self.path = Path(self.folder.name)

    def test_the_wheel(self):
        name = package.build_wheel(self.path)
        self.assertEqual(name, f"bcp47-{package.VERSION}-cp39-abi3-manylinux2014_{platform.machine()}.whl")
        with zipfile.ZipFile(self.path / name) as wheel:
            files = {file: wheel.read(file) for file in wheel.namelist()}
        self.assertLessEqual({f"bcp47/{name}" for name in NAMES}, files.keys())
        info = f"bcp47-{package.VERSION}.dist-info"
        self.assertLessEqual({f"{info}/licenses/LICENSE", f"{info}/licenses/LICENSE-MIT"}, files.keys())
        self.assertIn(b"Root-Is-Purelib: false\n", files[f"{info}/WHEEL"])
        self.assertIn(b"License: MIT OR Apache-2.0\n", files[f"{info}/METADATA"])
        self.assertEqual(files["bcp47/_bcp47.abi3.so"][:4], b"\x7fELF")
        asked = [tuple(map(int, version.split(b"."))) for version in re.findall(rb"\0GLIBC_([0-9.]+)(?=\0)", files["bcp47/_bcp47.abi3.so"])]
        self.assertTrue((2, 0) < max(asked) <= (2, 17), asked)
        rows = [row.split(",") for row in files[f"{info}/RECORD"].decode().splitlines()]
        self.assertEqual([row[0] for row in rows], list(files))
        for file, digest, length in rows[:-1]:
            wanted = base64.urlsafe_b64encode(hashlib.sha256(files[file]).digest()).rstrip(b"=").decode()
            self.assertEqual((digest, length), (f"sha256={wanted}", str(len(files[file]))))
        content = (self.path / name).read_bytes()
        package.build_wheel(self.path)
        self.assertEqual((self.path / name).read_bytes(), content)

    def test_the_registry(self):
        names = [package.build_wheel(self.path), package.build_registry(self.path)]
        self.assertEqual(names[1], "bcp47_registry-2025.5.15-py3-none-any.whl")
        place = self.path / "packages"
        pip = [sys.executable, "-m", "pip", "install", "-q", "--no-index", "--root-user-action=ignore", "--target", str(place)]
        ask = [sys.executable, "-c", "import bcp47; print(bcp47.Registry.bundled().canonical('zh-yue'))"]
        surroundings = {**os.environ, "PYTHONPATH": str(place)}
        subprocess.run([*pip, names[0]], check=True, cwd=self.path)
        none = subprocess.run(ask, env=surroundings, cwd=self.path, capture_output=True, text=True)
        self.assertIn("ModuleNotFoundError: No module named 'bcp47_registry'", none.stderr)
        subprocess.run([*pip, "--upgrade", names[1]], check=True, cwd=self.path)
        self.assertEqual(subprocess.run(ask, env=surroundings, cwd=self.path, check=True, capture_output=True, text=True).stdout, "yue\n")

    def test_editable(self):
        """What is imported are the sources, beside which the extension module is."""
        made = Path(package.HERE) / "bcp47" / "_bcp47.abi3.so"
        self.addCleanup(made.unlink, missing_ok=True)
        name = package.build_editable(self.path)
        with zipfile.ZipFile(self.path / name) as wheel:
            self.assertEqual(wheel.read("bcp47.pth").decode(), f"{package.HERE}\n")
            self.assertNotIn("bcp47/__init__.py", wheel.namelist())
        words = [sys.executable, "-m", "pip", "install", "-q", "--no-index", "--no-deps", "--root-user-action=ignore", "--target", str(self.path / "to"),
                 "-e", str(package.HERE)]
        subprocess.run(words, check=True)
        lines = f"import site; site.addsitedir({str(self.path / 'to')!r}); import bcp47, bcp47.__main__; print(bcp47.__file__)"
        told = subprocess.run([sys.executable, "-S", "-c", lines], check=True, text=True, stdout=subprocess.PIPE, env={"PATH": os.environ["PATH"]}).stdout
        self.assertEqual(Path(told.strip()).resolve(), package.HERE / "bcp47" / "__init__.py")

    def test_sources(self):
        name = package.build_sdist(self.path)
        content = (self.path / name).read_bytes()
        with tarfile.open(self.path / name) as sources:
            names = {file.name.split("/", 1)[1] for file in sources.getmembers()}
        self.assertLessEqual({"PKG-INFO", "_bcp47.c", "bcp47.h", "LICENSE", "pyproject.toml", "wheel_of_package.py", *(f"bcp47/{name}" for name in NAMES)}, names)
        package.build_sdist(self.path)
        self.assertEqual((self.path / name).read_bytes(), content)

    def built(self, sources, library=None):
        """Runs the sources' build of a wheel where pkg-config finds no library; the status, what was made and what was said."""
        made = self.path / "made"
        made.mkdir()
        words = [sys.executable, "-B", "-c", "import wheel_of_package; wheel_of_package.build_wheel('.')"]
        known = {name: value for name, value in os.environ.items() if name != "BCP47_LIBRARY"}
        known.update({"PKG_CONFIG_LIBDIR": "/no/such/folder", "PYTHONPATH": str(sources)}, **({"BCP47_LIBRARY": library} if library else {}))
        ran = subprocess.run(words, cwd=made, env=known, text=True, stdout=subprocess.PIPE, stderr=subprocess.PIPE)
        return ran.returncode, os.listdir(made), ran.stderr

    def unpacked(self):
        """The sources' archive in a folder of its own, beside whose parent somebody has put a library."""
        (self.path / "build").mkdir()
        (self.path / "build" / "libbcp47.a").write_bytes(b"")
        with tarfile.open(self.path / package.build_sdist(self.path)) as sources:
            sources.extractall(self.path / "unpacked")
        return self.path / "unpacked" / f"bcp47-{package.VERSION}"

    def test_a_library_that_is_missing(self):
        status, made, said = self.built(Path(package.__file__).parent, "/no/such/library.a")
        self.assertIn("BCP47_LIBRARY names /no/such/library.a, which is not there", said)
        self.assertEqual((status, made), (1, []))

    def test_an_archive_takes_no_library_beside_it(self):
        status, made, said = self.built(self.unpacked())
        self.assertIn("pkg-config finds no bcp47", said)
        self.assertEqual((status, made), (1, []))

    def test_an_archive_with_a_library_that_is_named(self):
        status, made, said = self.built(self.unpacked(), str(package.LIBRARY))
        self.assertEqual((status, [name.split("-")[0] for name in made]), (0, ["bcp47"]), said)


if __name__ == "__main__":
    unittest.main(argv=sys.argv[:1])
