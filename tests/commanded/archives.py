"""The desk on an archive, by any number of workers."""

import os
import random
import resource
import shutil
import subprocess

from commanded import DESK, PLACES, SQUARE, folder, run, track
from desks import text_of

SEED = 754
ONE_IN = 10  # folders of the archive, one is damaged


def archive_names(checks, place):
    place.mkdir()
    tree = {"a": PLACES, "a-b": PLACES, "a/b": PLACES, "-c d": PLACES, "e\nf": PLACES, "g": "unreadable zone\n"}
    for name in tree:
        folder(place / "root" / name)
    shutil.rmtree(place / "root" / "g")
    (place / "root" / "g" / "zone.trk").mkdir(parents=True)
    folder(place / "root" / "no zone", zone=None)
    (place / "link").symlink_to("root")
    (place / "root" / "linked").symlink_to("a")
    for name in ("root", "./root", str(place / "root"), "link"):
        rows = sorted(os.fsencode(f"{name}/{inner}") for inner in tree)
        shown = {row: f"$'{os.fsdecode(row)}'".replace("\n", "\\n") if b"\n" in row else os.fsdecode(row) for row in rows}
        expected = "".join(f"== {shown[row]}\n{tree[os.fsdecode(row)[len(name) + 1:]]}" for row in rows)
        told = "desk: 6 of 6 folders\ndesk: 6 folders: 5 reported, 0 refused, 1 unreadable, 0 missing\n"
        for jobs in ("1", "3"):
            checks.equal(f"--all {name}", run([DESK, "--jobs", jobs, "--all", name], cwd=place), (expected, told, 1))
    nothing = "desk: 0 folders: 0 reported, 0 refused, 0 unreadable, 0 missing\n"
    (place / "nothing").mkdir()
    checks.equal("--all of nothing", run([DESK, "--all", "nothing"], cwd=place), ("", nothing, 0))
    missing = "desk: 1 folder: 0 reported, 0 refused, 0 unreadable, 1 missing\n"
    checks.equal("--all nowhere", run([DESK, "--all", "nowhere"], cwd=place), ("== nowhere\nno such folder\n", missing, 1))


def archive(checks, place, folders):
    """So many folders, one in ten damaged: the same text by any number of workers, none lost, and a right summary."""
    seeded = random.Random(SEED)
    expected, counts = {}, {}
    for number in range(folders):
        name = f"{seeded.randrange(20):02}/night {number:05}"
        zone, releases = SQUARE, track(*[seeded.randrange(6) for _ in range(2 * seeded.randrange(40))])
        if number % ONE_IN == ONE_IN - 1:
            zone, releases = seeded.choice([(zone, releases[:-1] or b"\x01"), (zone + b"\x00", releases), (zone, None), (track(0, 0), releases), (zone, b"\x80\x00")])
        folder(place / name, zone, releases)
        expected[name] = text_of(zone, releases)
        kind = " ".join(expected[name].split()[: 3 if expected[name].startswith("refused") else 1])
        counts[kind] = counts.get(kind, 0) + 1
    text = "".join(f"== {place}/{name}\n{expected[name]}" for name in sorted(expected))
    numbers = {}
    for kind, many in counts.items():
        if kind.startswith("refused"):
            numbers[kind.split()[2]] = numbers.get(kind.split()[2], 0) + many
    refused = ", ".join(f"{number}: {numbers[number]}" for number in sorted(numbers))
    summary = f"desk: {folders} folders: {counts['releases']} reported, {sum(numbers.values())} refused ({refused}), {counts['unreadable']} unreadable, 0 missing"
    for jobs in (["--jobs", "1"], ["--jobs", "5"], []):
        found, told, status = run([DESK, *jobs, "--all", str(place)])
        checks.equal(f"the archive's text {jobs}", found, text)
        checks.equal(f"the archive's summary {jobs}", (told.splitlines()[-1], status), (summary, 1))
        checks.equal(f"the progress {jobs}", told.splitlines()[-2], f"desk: {folders} of {folders} folders")
    most = resource.getrusage(resource.RUSAGE_CHILDREN).ru_maxrss
    print(f"commands: no process of these held more than {most // 1024} MB")
    # what a reader has that stops on the way is the start of the text (all of it may be in the pipe by then, so the status can be 1)
    for size in (0, 1000, len(text) // 2):
        with open(place.parent / "read", "wb") as read:
            reader = subprocess.Popen(["head", "-c", str(size)], stdin=subprocess.PIPE, stdout=read)
        _, _, status = run([DESK, "--all", str(place)], stdout=reader.stdin)
        reader.communicate()
        found = (place.parent / "read").read_text()
        checks.equal(f"an archive whose reader stops after {size} bytes", (found, status in (1, 2)), (text[:size], True))
    with open("/dev/full", "wb") as full:
        checks.equal("an archive to a full disk", run([DESK, "--all", str(place)], stdout=full)[2], 2)
