"""The desk on folders: the ones that were named, and what the exit status tells."""

import os
import shutil
import subprocess

from commanded import CUT, DESK, OTHER, PLACES, SQUARE, THREE, folder, run, track
from limits import as_nobody, files_of_at_most


def names(checks, place):
    for name in ("left", "sp ace", "-left", "--left", "*", "a\nb", "$(x)", "ü"):
        folder(place / name)
    folder(place / "elsewhere" / "left", releases=b"\x00")
    (place / "link").symlink_to("left")
    (place / "commands").mkdir()
    (place / "commands" / "my desk").symlink_to(DESK)
    linked = str(place / "commands" / "my desk")
    for told, environment in environments(place):
        for desk in (DESK, linked):
            for name in ("left", "left/", "sp ace", "-left", "--left", "*", "$(x)", "ü", "link", f"{place}/left", "./left"):
                shown = name.rstrip("/")
                found = run([desk, name], cwd=place, env=environment)
                checks.equal(f"{name} in {told}", found, (f"== {shown}\n{PLACES}", "", 0))
            checks.equal("a name of two lines", run([desk, "a\nb"], cwd=place, env=environment), (f"== $'a\\nb'\n{PLACES}", "", 0))
            for name in ("-", "", "nowhere", "trap", "left\n"):
                shown = "$'left\\n'" if name == "left\n" else name
                found = run([desk, name], cwd=place, env=environment)
                checks.equal(f"{name!r} in {told}", found, (f"== {shown}\nno such folder\n", "", 1))
    folder(place / "--all")
    checks.equal("a folder --all", run([DESK, "--", "--all"], cwd=place), (f"== --all\n{PLACES}", "", 0))
    checks.equal("bash desk", run(["bash", DESK, "left"], cwd=place, env=os.environ | {"CDPATH": f"{place}/elsewhere"}), (f"== left\n{PLACES}", "", 0))


def environments(place):
    """By their names; the odd one would lead a command to another folder, `elsewhere` or the root, or have it print more."""
    trap = place / "trap"
    trap.write_text("cd() { builtin cd /; }; CDPATH=/; echo trapped\n")
    odd = {
        "CDPATH": f"{place}/elsewhere:/",
        "BASH_ENV": str(trap),
        "ENV": str(trap),
        "BASH_FUNC_cd%%": "() {  builtin cd /\n}",
        "BASH_FUNC_printf%%": "() {  echo trapped\n}",
        "OLDPWD": f"{place}/elsewhere/left",
        "POSIXLY_CORRECT": "1",
        "IFS": "l",
        "GLOBIGNORE": "*",
    }
    named = [("a plain environment", {}), ("an odd environment", odd), ("another language", {"LC_ALL": "C"})]
    return [(told, os.environ | environment) for told, environment in named]


def statuses(checks, place):
    folder(place / "good")
    folder(place / "empty", releases=b"\x00")
    folder(place / "cut", releases=THREE[:-1])
    folder(place / "no zone", zone=None)
    folder(place / "no releases", releases=None)
    folder(place / "two corners", zone=track(0, 0, 4, 0))
    text = {
        "good": PLACES,
        "empty": OTHER,
        "cut": CUT,
        "no zone": "unreadable zone\n",
        "no releases": "unreadable releases\n",
        "two corners": "refused zone 4 0\n",
        "nowhere": "no such folder\n",
    }
    for name, expected in text.items():
        checks.equal(name, run([DESK, name], cwd=place), (f"== {name}\n{expected}", "", 0 if name in ("good", "empty") else 1))
    everything = "".join(f"== {name}\n{expected}" for name, expected in text.items())
    told = "desk: 7 folders: 2 reported, 2 refused (4: 1, 6: 1), 2 unreadable, 1 missing\n"
    checks.equal("all of them", run([DESK, *text], cwd=place), (everything, told, 1))
    told = "desk: 2 folders: 2 reported, 0 refused, 0 unreadable, 0 missing\n"
    checks.equal("two good ones", run([DESK, "good", "empty"], cwd=place), (f"== good\n{PLACES}== empty\n{OTHER}", told, 0))
    for words in (["--all"], ["--jobs", "0", "good"], ["--jobs"]):
        found = run([DESK, *words], cwd=place)
        checks.equal(f"{words}", (found[0], found[2]), ("", 2))


def unwritten(checks, place):
    """Outputs that take nothing, or not all."""
    folder(place / "good")
    folder(place / "cut", releases=THREE[:-1])
    lost = "desk: the text could not be written\n"
    with open("/dev/full", "wb") as full:
        checks.equal("a full disk", run([DESK, "good"], cwd=place, stdout=full), ("", lost, 2))
    checks.equal("no output", run(["bash", "-c", '"$0" good >&-', DESK], cwd=place), ("", lost, 2))
    reader, writer = os.pipe()
    os.close(reader)
    checks.equal("a pipe that nobody reads", run([DESK, "good"], cwd=place, stdout=writer), ("", lost, 2))
    os.close(writer)
    # a disk that is full after so many bytes: what stands there is the start of the text, and the status is 2
    whole = f"== good\n{PLACES}== cut\n{CUT}"
    for size in range(len(whole) + 1):
        path = place / "limited"
        with open(path, "wb") as limited:
            _, _, status = run([DESK, "good", "cut"], cwd=place, stdout=limited, preexec_fn=files_of_at_most(size))
        checks.equal(f"a disk of {size} bytes", (path.read_text(), status), (whole[:size], 2 if size < len(whole) else 1))


def unreadable(checks, place):
    """Folders and files that may not be read, by a user who is not root."""
    place.mkdir()
    for name in ("good", "closed", "closed zone", "closed releases", "within"):
        folder(place / "root" / name)
    (place / "root" / "closed zone" / "zone.trk").chmod(0)
    (place / "root" / "closed releases" / "release.trk").chmod(0)
    shutil.rmtree(place / "root" / "within")
    folder(place / "root" / "within" / "closed")
    (place / "root" / "closed").chmod(0)
    (place / "root" / "within").chmod(0)
    text = {"closed": "unreadable folder\n", "closed releases": "unreadable releases\n", "closed zone": "unreadable zone\n", "good": PLACES}
    if is_closed_to_nobody(DESK):
        print("commands: this user's files can not be read by another one, so nothing is tried without rights")
        return
    everything = "".join(f"== {name}\n{expected}" for name, expected in text.items())
    told = "desk: 4 folders: 1 reported, 0 refused, 3 unreadable, 0 missing\n"
    checks.equal("folders without rights", run([DESK, *text], cwd=place / "root", preexec_fn=as_nobody), (everything, told, 1))
    found = run([DESK, "--all", "root"], cwd=place, preexec_fn=as_nobody, env=os.environ | {"TMPDIR": "/tmp"})
    del text["closed"]
    seen = "".join(f"== root/{name}\n{expected}" for name, expected in text.items())
    told = "desk: not every folder could be looked into\ndesk: 4 folders: 1 reported, 0 refused, 3 unreadable, 0 missing\n"
    checks.equal("an archive without rights", (found[0], found[1].endswith(told), found[2]), (seen, True, 1))
    for path in ("closed", "within"):
        (place / "root" / path).chmod(0o755)


def is_closed_to_nobody(command):
    return subprocess.run([command, "--help"], stdout=subprocess.DEVNULL, stderr=subprocess.DEVNULL, preexec_fn=as_nobody).returncode != 0


# folders that have no places, by names for them: their files, and the explained text; the plain one ends before the colon
NO_PLACES = {
    "1 zone": (track(*[0] * 130), THREE, "refused zone 1 0: more corners than a zone may have, or more points than a file may hold\n"),
    "1": (SQUARE, b"\x81\x04", "refused releases 1 0: more points than a file may hold\n"),
    "3": (SQUARE, b"\x01\x02\x00", "refused releases 3 1: the coordinate whose number begins at byte 1 is not accepted: it is too large or too small\n"),
    "4": (track(0, 0), THREE, "refused zone 4 0: too few corners for a zone\n"),
    "6": (SQUARE, THREE[:-1], CUT[:-1] + f": the file ends inside the number that begins at byte {len(THREE) - 8}\n"),
    "7": (SQUARE, b"\x80\x00", "refused releases 7 0: the number that begins at byte 0 is not in its shortest form, or is too large\n"),
    "8": (SQUARE + b"\x00", THREE, f"refused zone 8 {len(SQUARE)}: bytes follow the last number, from byte {len(SQUARE)} on\n"),
    "unreadable": (SQUARE, None, "unreadable releases\n"),
}


def plain(text):
    return text.rstrip("\n").split(":")[0] + "\n"


def explained(checks, place):
    folder(place / "good")
    for words in (["--explain"], []):
        checks.equal(f"{words} good", run([DESK, *words, "good"], cwd=place), (f"== good\n{PLACES}", "", 0))
    for name, (zone, releases, expected) in NO_PLACES.items():
        folder(place / name, zone, releases)
        checks.equal(f"--explain, {name}", run([DESK, "--explain", name], cwd=place), (f"== {name}\n{expected}", "", 1))
        checks.equal(f"without --explain, {name}", run([DESK, name], cwd=place), (f"== {name}\n{plain(expected)}", "", 1))
