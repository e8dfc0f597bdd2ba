"""10,000 random listings through the package and through the command, where that is built (`bin/program command`) or named by
PUCHKEWA_COMMAND. Without it the test says that it is left out; the fixed answers of the real Rust are tested in any case
(test_answers.py)."""
import os
import random
import re
import subprocess
import tempfile
import unittest
from pathlib import Path

from puchkewa import Refusal, clean, tape

from . import common

COUNT, BATCH = 10_000, 250


def command():
    named = os.environ.get("PUCHKEWA_COMMAND")
    if named:
        return Path(named)
    if (common.TOP / "target" / "bin" / "command").is_file():
        return common.TOP / "bin" / "puchkewa"
    # of a prefix
    installed = common.TOP.parents[1] / "bin" / "puchkewa"
    return installed if installed.is_file() else None


def words(settings):
    out = ["-c", ["32", "sysv", "windows"][settings.convention], "-e", ["2018", "2024"][settings.edition]]
    return out + ["--settle"] * settings.settle + ["--parts"] * settings.parts


def cleaned_by(program, settings, tapes):
    """What the command makes of each tape: the cleaned tape, or the number and the place of the refusal."""
    with tempfile.TemporaryDirectory() as folder:
        raw, out = Path(folder, "raw"), Path(folder, "out")
        raw.mkdir()
        out.mkdir()
        files = [raw / f"{number}.tape" for number in range(len(tapes))]
        for file, it in zip(files, tapes):
            file.write_bytes(it)
        done = subprocess.run([program, "clean", *words(settings), *files, "-d", out], capture_output=True, text=True)
        told = {name: (int(number), int(place)) for name, number, place in re.findall(r"/(\d+\.tape): refused (\d+) at (\d+)", done.stderr)}
        return [told[file.name] if file.name in told else (out / file.name).read_bytes() for file in files]


class Command(unittest.TestCase):
    def test_the_package_does_what_the_command_does(self):
        program = command()
        if program is None:
            self.skipTest("the command is not built (bin/program command)")
        chance = random.Random(41)
        cleaned = refused = 0
        for _ in range(COUNT // BATCH):
            settings = common.random_settings(chance)
            listings = [common.random_listing(chance) for _ in range(BATCH)]
            for listing, want in zip(listings, cleaned_by(program, settings, [tape.write(it) for it in listings])):
                try:
                    got = tape.write(clean(listing, settings).listing)
                    cleaned += 1
                except Refusal as refusal:
                    got = refusal.number, refusal.place
                    refused += 1
                self.assertEqual(got, want, f"of:\n{listing}")
        print(f"{cleaned} cleaned, {refused} refused, all as the command does it")
        self.assertGreater(cleaned, COUNT * 9 // 10)
        self.assertGreater(refused, COUNT // 50)
