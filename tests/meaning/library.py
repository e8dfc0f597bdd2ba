"""The library, called from here: `puchkewa_clean` and `puchkewa_cautions` of include/puchkewa.h on tapes. The static library of `bin/archive` is made a shared object first."""
import ctypes
import pathlib
import subprocess
import sys

ROOT = pathlib.Path(__file__).resolve().parents[2]
ARCHIVE = ROOT / "target" / "staticlib" / "libpuchkewa.a"
WORK, OUTPUT, SETS = 49152, 59137, 512


class CSettings(ctypes.Structure):
    _fields_ = [("convention", ctypes.c_uint8), ("settle", ctypes.c_bool), ("edition", ctypes.c_uint8), ("parts", ctypes.c_bool), ("profile", ctypes.c_bool)]


class CReport(ctypes.Structure):
    _fields_ = [(name, ctypes.c_uint64) for name in
                ("refusal", "place", "length", "attempts_1", "attempts_2", "attempts_3", "removed", "cut", "rounds", "attempts")]


class CAnswer(ctypes.Structure):
    _fields_ = [(name, ctypes.c_uint64) for name in ("refusal", "place", "value")]


def shared_object(folder, archive=None):
    """Makes the shared object in a folder; without an archive that of `bin/archive`, which is made if it is not there."""
    if archive is None:
        archive = ARCHIVE
        if not archive.exists():
            subprocess.run([str(ROOT / "bin" / "archive")], check=True, stdout=sys.stderr)
    made = pathlib.Path(folder) / "puchkewa.so"
    subprocess.run(["cc", "-shared", "-Wl,--whole-archive", str(archive), "-Wl,--no-whole-archive", "-o", str(made)], check=True)
    return made


class Library:
    def __init__(self, path):
        self.library = ctypes.CDLL(str(path))
        self.function = self.library.puchkewa_clean
        self.function.restype = CReport
        size, memory = ctypes.c_size_t, ctypes.c_char_p
        self.function.argtypes = [CSettings, memory, size, memory, size, memory, size, memory, size]
        self.lent = [ctypes.create_string_buffer(n) for n in (WORK, WORK, OUTPUT)]

    def clean(self, tape, settings):
        """The cleaned tape and the report; of a refused call no tape."""
        one, two, out = self.lent
        report = self.function(lent(settings), tape, len(tape), one, WORK, two, WORK, out, OUTPUT)
        return (None if report.refusal else out.raw[:report.length]), report

    def cautions(self, tape, settings):
        """The set of each finished line, as the library tells it; of a refused call none. (An older library does not have the call.)"""
        function = self.library.puchkewa_cautions
        function.restype, function.argtypes = CAnswer, self.function.argtypes
        one, two, out = self.lent
        answer = function(lent(settings), tape, len(tape), one, WORK, two, WORK, out, SETS)
        if answer.refusal:
            return None
        sets = [int.from_bytes(out.raw[at:at + 2], "little") for at in range(0, answer.value, 2)]
        return [{k for k in range(16) if s >> k & 1} for s in sets]


def lent(settings):
    return CSettings(settings.convention, settings.settle, settings.edition, settings.parts, settings.profile)
