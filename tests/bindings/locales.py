"""Each name of a locale that Python knows, and that the GNU C Library has, stands for a tag, which is valid but where its code is
registered to nobody. Arguments: libbcp47.so.1, and IANA's registry."""
import ctypes
import locale
import sys
from pathlib import Path

UNREGISTERED = {"en_DL.UTF-8", "en_EN.ISO8859-1", "en_ZS.UTF-8", "eo_EO.ISO8859-3", "pd_DE.ISO8859-1", "pd_US.ISO8859-1",
                "ph_PH.ISO8859-1", "pp_AN.ISO8859-1"}


class Outcome(ctypes.Structure):
    _fields_ = [("status", ctypes.c_int), ("detail", ctypes.c_int), ("place", ctypes.c_size_t), ("length", ctypes.c_size_t),
                ("text", ctypes.c_int), ("reserved", ctypes.c_int)]


library = ctypes.CDLL(sys.argv[1])
for call in (library.bcp47_open, library.bcp47_posix, library.bcp47_validate):
    call.restype = Outcome
registry, room = ctypes.c_void_p(), ctypes.create_string_buffer(1025)
of_iana = Path(sys.argv[2]).read_bytes()
assert library.bcp47_open(ctypes.byref(registry), of_iana, ctypes.c_size_t(len(of_iana)), None, ctypes.c_size_t(0)).status == 0

names = set(locale.locale_alias.values())
supported = Path("/usr/share/i18n/SUPPORTED")
if supported.exists():
    names |= {line.split()[0] for line in supported.read_text().splitlines() if line.strip()}
assert len(names) > 300
invalid = set()
for name in names:
    bytes_of = name.encode()
    made = library.bcp47_posix(bytes_of, ctypes.c_size_t(len(bytes_of)), room, ctypes.c_size_t(len(room)))
    assert made.status == 0, (name, made.detail, made.place)
    if library.bcp47_validate(registry, room, ctypes.c_size_t(made.length)).status:
        invalid.add(name)
assert invalid == UNREGISTERED, invalid ^ UNREGISTERED
library.bcp47_close(registry)
