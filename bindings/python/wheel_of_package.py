# SPDX-License-Identifier: MIT OR Apache-2.0
"""Makes a wheel of the package, whose extension module serves each Python from 3.9 on, and an archive of its sources.

It needs a C compiler, Python's headers and libbcp47. CC and CFLAGS are as for make. BCP47_LIBRARY names the static library;
without it that is the repository's build/libbcp47.a, and where that is not there, or this is an archive of sources, pkg-config
finds the library of the system. The same files, compiler and SOURCE_DATE_EPOCH give the same bytes.
"""
import base64
import gzip
import hashlib
import io
import os
import re
import shlex
import struct
import subprocess
import sysconfig
import tarfile
import tempfile
import time
import zipfile
from pathlib import Path

HERE = Path(__file__).resolve().parent
# An archive of sources has the header in it, and nothing beside its folder is its own.
IS_ARCHIVE = (HERE / "bcp47.h").exists()
HEADERS = HERE if IS_ARCHIVE else HERE.parent / "c"
LICENSES = [(HERE if IS_ARCHIVE else HERE.parent.parent) / name for name in ("LICENSE", "LICENSE-APACHE", "LICENSE-MIT")]
NAMED = os.environ.get("BCP47_LIBRARY")
BUILT = HERE.parent.parent / "build" / "libbcp47.a"
LIBRARY = NAMED or (None if IS_ARCHIVE or not BUILT.exists() else BUILT)
NAME, VERSION = "bcp47", "1.1.0"
INFO = f"{NAME}-{VERSION}.dist-info"
METADATA = f"""Metadata-Version: 2.1
Name: {NAME}
Version: {VERSION}
Summary: BCP 47 language tags, read and made canonical by a registry of language subtags
License: MIT OR Apache-2.0
Project-URL: Repository, https://langtag.example/langtag
Requires-Python: >=3.9
Classifier: Programming Language :: Python :: 3
Classifier: Operating System :: POSIX :: Linux
Classifier: Topic :: Software Development :: Internationalization
Classifier: Typing :: Typed
Description-Content-Type: text/plain

Says whether a language tag is well-formed and valid, and makes it canonical, by a registry of language subtags that you hand
in, in the format of IANA's: zh-yue and YUE become yue. Over a library for C that stands on proved calls.
"""
# The processors of ELF's field e_machine. With the static library in it, the module asks for no symbol after glibc 2.17.
PROCESSORS = {62: "x86_64", 183: "aarch64"}
# Seconds since 1970; a zip file begins with 1980.
TIME = max(int(os.environ.get("SOURCE_DATE_EPOCH") or time.time()), 315532800)


def library():
    """The words by which a compiler finds the library and its header."""
    if NAMED and not Path(NAMED).exists():
        raise FileNotFoundError(f"BCP47_LIBRARY names {NAMED}, which is not there")
    if LIBRARY:
        return [f"-I{HEADERS}", str(LIBRARY), "-Wl,--exclude-libs,ALL"]
    try:
        return subprocess.run(["pkg-config", "--cflags", "--libs", "bcp47"], check=True, text=True, stdout=subprocess.PIPE).stdout.split()
    except (OSError, subprocess.CalledProcessError):
        raise FileNotFoundError("pkg-config finds no bcp47: install libbcp47, run 'make lib' in the repository, or name a libbcp47.a by "
                                "BCP47_LIBRARY") from None


def build_extension(path):
    """Compiles the extension module to a path."""
    words = [*shlex.split(os.environ.get("CC") or "cc"), *shlex.split(os.environ.get("CFLAGS") or "-O2"), "-std=c11", "-fPIC",
             "-fvisibility=hidden", "-shared", "-Wall", f"-I{sysconfig.get_paths()['include']}", str(HERE / "_bcp47.c"), *library(),
             "-Wl,-z,now", "-o", str(path)]
    subprocess.run(words, check=True)


def extension():
    """The bytes of the extension module."""
    with tempfile.TemporaryDirectory() as folder:
        path = Path(folder) / "_bcp47.abi3.so"
        build_extension(path)
        return path.read_bytes()


def write_metadata(folder):
    """Writes what pip and importlib.metadata read of a package, beside it in a folder of modules."""
    (Path(folder) / INFO).mkdir()
    (Path(folder) / INFO / "METADATA").write_text(METADATA)


def sources():
    """Each file of the package."""
    return [path for path in sorted((HERE / NAME).iterdir()) if path.suffix in (".py", ".pyi") or path.name == "py.typed"]


def write_wheel(folder, module, files):
    """Writes a wheel of files for the processor of the extension module."""
    processor = PROCESSORS[struct.unpack_from("<H", module, 18)[0]]
    return write_tagged(folder, f"cp39-abi3-{'manylinux2014' if LIBRARY else 'linux'}_{processor}", METADATA, files)


def write_tagged(folder, tag, metadata, files):
    """Writes a wheel of files and of what says so of it, and gives its name."""
    name, version = (re.search(rf"^{field}: (.*)$", metadata, re.M)[1].replace("-", "_") for field in ("Name", "Version"))
    info = f"{name}-{version}.dist-info"
    files += [(f"{info}/licenses/{path.name}", path.read_bytes()) for path in LICENSES]
    pure = "true" if tag.endswith("any") else "false"
    wheel_words = f"Wheel-Version: 1.0\nGenerator: wheel_of_package\nRoot-Is-Purelib: {pure}\nTag: {tag}\n"
    files += [(f"{info}/METADATA", metadata.encode()), (f"{info}/WHEEL", wheel_words.encode())]
    record = []
    for path, content in files:
        digest = base64.urlsafe_b64encode(hashlib.sha256(content).digest()).rstrip(b"=").decode()
        record.append(f"{path},sha256={digest},{len(content)}\n")
    files.append((f"{info}/RECORD", "".join([*record, f"{info}/RECORD,,\n"]).encode()))
    name = f"{name}-{version}-{tag}.whl"
    with zipfile.ZipFile(Path(folder) / name, "w") as wheel:
        for path, content in files:
            entry = zipfile.ZipInfo(path, time.gmtime(TIME)[:6])
            entry.external_attr = (0o100755 if path.endswith(".so") else 0o100644) << 16
            wheel.writestr(entry, content, zipfile.ZIP_DEFLATED)
    return name


def build_registry(wheel_directory):
    """A wheel of IANA's registry, whose version is its day: Registry.bundled reads it."""
    content = (HERE.parent.parent / "examples" / "iana-2025-05-15.txt").read_bytes()
    day = content.split()[1].decode()
    version = ".".join(str(int(number)) for number in day.split("-"))
    metadata = (f"Metadata-Version: 2.1\nName: bcp47-registry\nVersion: {version}\nLicense: MIT OR Apache-2.0\n"
                f"Summary: IANA's Language Subtag Registry of {day}, for the package bcp47\n")
    files = [("bcp47_registry/__init__.py", f'FILE_DATE = "{day}"\n'.encode()), ("bcp47_registry/registry.txt", content)]
    return write_tagged(wheel_directory, "py3-none-any", metadata, files)


def build_wheel(wheel_directory, config_settings=None, metadata_directory=None):
    module = extension()
    files = [(f"{NAME}/{path.name}", path.read_bytes()) for path in sources()]
    return write_wheel(wheel_directory, module, [*files, (f"{NAME}/_bcp47.abi3.so", module)])


def build_editable(wheel_directory, config_settings=None, metadata_directory=None):
    """A wheel that names this folder, for pip install -e: the extension module is then beside the sources."""
    path = HERE / NAME / "_bcp47.abi3.so"
    build_extension(path)
    return write_wheel(wheel_directory, path.read_bytes(), [(f"{NAME}.pth", f"{HERE}\n".encode())])


def build_sdist(sdist_directory, config_settings=None):
    folder = f"{NAME}-{VERSION}"
    files = [(f"{NAME}/{path.name}", path.read_bytes()) for path in sources()]
    files += [(name, (HERE / name).read_bytes()) for name in ("_bcp47.c", "pyproject.toml", Path(__file__).name)]
    files += [(path.name, path.read_bytes()) for path in (HEADERS / "bcp47.h", *LICENSES)]
    files.append(("PKG-INFO", METADATA.encode()))
    archive = io.BytesIO()
    with tarfile.open(fileobj=archive, mode="w", format=tarfile.USTAR_FORMAT) as tar:
        for path, content in files:
            entry = tarfile.TarInfo(f"{folder}/{path}")
            entry.size, entry.mtime, entry.mode = len(content), TIME, 0o644
            tar.addfile(entry, io.BytesIO(content))
    with open(Path(sdist_directory) / f"{folder}.tar.gz", "wb") as file:
        file.write(gzip.compress(archive.getvalue(), mtime=TIME))
    return f"{folder}.tar.gz"
