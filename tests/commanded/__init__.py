"""What tests/commands tries of the commands, part by part. Here: how a command is run, what it is run on, and how its output is held to
what was expected."""

import subprocess
from pathlib import Path

from questions.doubles import pattern_of
from questions.tracks import file_of

ROOT = Path(__file__).resolve().parent.parent.parent
DESK = str(ROOT / "desk")
WHY = str(ROOT / "why")
ASK = str(ROOT / "ask")
SECONDS = 600


def built(root, command):
    """Where rt leaves a command's program."""
    return root / "crates" / command / "out" / command


def track(*coordinates):
    return file_of([pattern_of(float(coordinate)) for coordinate in coordinates])


SQUARE = track(0, 0, 4, 0, 4, 4, 0, 4)
THREE = track(2, 2, 4, 1, 5, 5)
PLACES = "releases 3\n1 inside\n2 border\n3 outside\n"
OTHER = "releases 0\n"
CUT = "refused releases 6 %d\n" % (len(THREE) - 8)


class Checks:
    def __init__(self):
        self.asked = self.faults = 0

    def equal(self, what, found, expected):
        self.asked += 1
        if found != expected:
            self.faults += 1
            print(f"commands: {what}: expected {expected!r:.600}, found {found!r:.600}")


def run(words, **options):
    """Standard output, what is told on standard error, and the status."""
    options = {"stdin": subprocess.DEVNULL, "stdout": subprocess.PIPE, "stderr": subprocess.PIPE, "timeout": SECONDS} | options
    ended = subprocess.run(words, **options)
    return (ended.stdout or b"").decode(), (ended.stderr or b"").decode(), ended.returncode


def folder(path, zone=SQUARE, releases=THREE):
    path.mkdir(parents=True)
    if zone is not None:
        (path / "zone.trk").write_bytes(zone)
    if releases is not None:
        (path / "release.trk").write_bytes(releases)
    return path
