"""Where the shared library is, in this order:

1. the file that the environment variable PUCHKEWA_LIBRARY names;
2. beside this file, where `pip install` puts it;
3. in target/sharedlib of the repository that this package stands in (`bin/shared`);
4. in lib of the prefix that this package is installed or unpacked in (`bin/install`);
5. where the system's loader looks for its name.

This file needs no other of the package: make_wheel.py runs it.
"""
from __future__ import annotations

import os
from pathlib import Path
from typing import Optional


def name_of(version: str) -> str:
    """The soname of a version's library."""
    return "libpuchkewa.so." + version.rsplit(".", 1)[0]


def find(version: str) -> Optional[Path]:
    """The file of a version's library, or None where none of the first four places has it."""
    named = os.environ.get("PUCHKEWA_LIBRARY")
    if named:
        return Path(named)
    here = Path(__file__).resolve().parent
    places = [here]
    # bindings/python/puchkewa of the repository; share/puchkewa/bindings/python/puchkewa of a prefix
    if len(here.parents) > 4:
        places += [here.parents[2] / "target" / "sharedlib", here.parents[4] / "lib"]
    return next((p / name_of(version) for p in places if (p / name_of(version)).is_file()), None)
