"""The shared library and its eleven functions, as include/puchkewa.h declares them. place.py says where the library is looked for."""
from __future__ import annotations

import ctypes
from ctypes import c_bool, c_char_p, c_size_t, c_uint8, c_uint64, c_void_p

from .place import find, name_of
from .version import __version__

WORK = 49_152
OUTPUT = 59_137
CAUTIONS_OUTPUT = 512
OFFSETS_OUTPUT = 59_146
STORE = 524_288
RESTORED = 65_523


class Settings(ctypes.Structure):
    """struct puchkewa_settings"""

    _fields_ = [("convention", c_uint8), ("settle", c_bool), ("edition", c_uint8), ("parts", c_bool), ("profile", c_bool)]


class Report(ctypes.Structure):
    """struct puchkewa_report"""

    _fields_ = [
        (name, c_uint64)
        for name in ("refusal", "place", "length", "attempts_1", "attempts_2", "attempts_3", "removed", "cut", "rounds", "attempts")
    ]


class Answer(ctypes.Structure):
    """struct puchkewa_answer"""

    _fields_ = [("refusal", c_uint64), ("place", c_uint64), ("value", c_uint64)]


READ = [c_char_p, c_size_t]
WRITTEN = [c_void_p, c_size_t]
FUNCTIONS = {
    "puchkewa_clean": (Report, [Settings, *READ, *WRITTEN, *WRITTEN, *WRITTEN]),
    "puchkewa_to_2018": (Answer, [*READ, *WRITTEN]),
    "puchkewa_to_2024": (Answer, [*READ, *WRITTEN]),
    "puchkewa_save": (Answer, [*WRITTEN, c_char_p, *READ]),
    "puchkewa_restore": (Answer, [*WRITTEN, c_char_p, *WRITTEN]),
    "puchkewa_delete": (Answer, [*WRITTEN, c_char_p]),
    "puchkewa_laborious": (Answer, [c_uint64, *WRITTEN]),
    "puchkewa_start_value": (Answer, [*READ, *READ, *READ, c_uint64]),
    "puchkewa_to_offsets": (Answer, [c_uint64, *READ, *WRITTEN]),
    "puchkewa_from_offsets": (Answer, [*READ, *WRITTEN]),
    "puchkewa_cautions": (Answer, [Settings, *READ, *WRITTEN, *WRITTEN, *WRITTEN]),
}


def load() -> ctypes.CDLL:
    """The library, with the types of its functions."""
    file = find(__version__) or name_of(__version__)
    try:
        library = ctypes.CDLL(str(file))
    except OSError as error:
        raise ImportError(
            f"{file} is not loaded ({error}). `bin/archive && bin/shared` in Puchkewa's repository makes it, `bin/install PREFIX` "
            "installs it; the environment variable PUCHKEWA_LIBRARY may name the file."
        ) from error
    for name, (answer, arguments) in FUNCTIONS.items():
        function = getattr(library, name)
        function.restype, function.argtypes = answer, arguments
    return library


LIBRARY = load()


def room(length: int) -> ctypes.Array:
    """Memory for a call to write to."""
    return (ctypes.c_char * length)()
