"""The command why: the folder and the releases that are named, what it tells and with which status, and where something fails."""

import os

from commanded import OTHER, ROOT, SQUARE, THREE, WHY, built, folder, run, track
from commanded.folders import NO_PLACES, environments, is_closed_to_nobody, plain
from commanded.programs import MAKE, PROVING, copy_of, install, install_rt
from limits import as_nobody, files_of_at_most

# so that the square has each form of line
SIX = track(2, 2, 4, 1, 5, 5, 4, 4, -1, 2, 0, 0)
LINES = [
    "1 inside: edge 1 up, total 1\n",
    "2 border: edge 1, between its corners\n",
    "3 outside: no edge counts, total 0\n",
    "4 border: edge 1, at one of its corners\n",
    "5 outside: edge 1 up, edge 3 down, total 0\n",
    "6 border: edge 0, at one of its corners\n",
]
LEFT = "".join(LINES[1:])
TOLD = "why: 5 of 6 releases not inside\n"
LOST = "why: the text could not be written\n"
NO_FOLDER = "no such folder\n"

# all 64 edges count for each of the most releases
ZIGZAG = track(*[number for index in range(64) for number in (index + 1, index % 2 * 2 - 1)])
ALL_COUNT = "".join(f"edge {edge} up, edge {edge + 1} down, " for edge in range(0, 64, 2)) + "total 0\n"

NEEDED = ["bash", "find", "qemu-x86_64", "readlink", "touch", "uname"]


def six(path):
    return folder(path, releases=SIX)


def why_names(checks, place):
    """Folders with odd names, in odd environments, and by a link to the command."""
    for name in ("left", "-left", "-", "a\nb", "--help"):
        six(place / name)
    folder(place / "elsewhere" / "left", releases=b"\x00")
    (place / "commands").mkdir()
    (place / "commands" / "my why").symlink_to(WHY)
    for told, environment in environments(place):
        for why in (WHY, str(place / "commands" / "my why")):
            for name in ("left", "left/", "-left", "-", "a\nb", f"{place}/left"):
                checks.equal(f"why {name!r} in {told}", run([why, name], cwd=place, env=environment), (LEFT, TOLD, 0))
            for name in ("", "nowhere", "trap", "left\n"):
                checks.equal(f"why {name!r} in {told}", run([why, name], cwd=place, env=environment), (NO_FOLDER, "", 1))
            named = (LINES[2] + LINES[0] + "* no such release\n", "", 1)
            checks.equal(f"releases named in {told}", run([why, "left", "3", "1", "*"], cwd=place, env=environment), named)
    checks.equal("why -- --help", run([WHY, "--", "--help"], cwd=place), (LEFT, TOLD, 0))
    checks.equal("bash why", run(["bash", WHY, "left"], cwd=place, env=os.environ | {"CDPATH": f"{place}/elsewhere"}), (LEFT, TOLD, 0))


def why_named(checks, place):
    """Releases that are named, and words that are none."""
    six(place / "six")
    folder(place / "most", ZIGZAG, track(*[0] * 1024))
    for numbers in ([1], [6], [1, 2, 3, 4, 5, 6], [6, 5, 4, 3, 2, 1], [3, 1], [2, 2], [5, 1, 5]):
        found = run([WHY, "six", *map(str, numbers)], cwd=place)
        checks.equal(f"releases {numbers}", found, ("".join(LINES[number - 1] for number in numbers), "", 0))
    words = ["0", "00", "03", "-1", "+1", "1.0", "1e0", "0x1", "1,2", "1-2", "", " ", " 1", "1 ", "x", "lines", "*", "$(x)", "٣", "²"]
    # beyond the last, and numbers that are 1 where they are cut to 64 bits, or not numbers there
    words += ["7", "10", "1000000", "18446744073709551617", "999999999999999999999"]
    # what stands behind the folder is no option
    words += ["--", "--help", "--explain", "-n"]
    shown = {word: word for word in words} | {"1\n": "$'1\\n'", "4\n5": "$'4\\n5'", "\n": "$'\\n'", "1\t": "$'1\\t'"}
    for word, told in shown.items():
        checks.equal(f"release {word!r}", run([WHY, "six", word], cwd=place), (f"{told} no such release\n", "", 1))
    between = "".join(f"{told} no such release\n{LINES[1]}" for told in shown.values())
    checks.equal("releases between other words", run([WHY, "six", *[each for word in shown for each in (word, "2")]], cwd=place), (between, "", 1))
    checks.equal("the last of the most", run([WHY, "most", "512"], cwd=place), (f"512 outside: {ALL_COUNT}", "", 0))
    checks.equal("one more than the most", run([WHY, "most", "513"], cwd=place), ("513 no such release\n", "", 1))


def why_unnamed(checks, place):
    """No release is named: all that are not inside, and how many on standard error."""
    six(place / "six")
    folder(place / "inside", releases=track(2, 2, 1, 3))
    folder(place / "none", releases=b"\x00")
    folder(place / "one", releases=track(9, 9))
    folder(place / "most", ZIGZAG, track(*[0] * 1024))
    checks.equal("six releases", run([WHY, "six"], cwd=place), (LEFT, TOLD, 0))
    checks.equal("all inside", run([WHY, "inside"], cwd=place), ("", "why: 0 of 2 releases not inside\n", 0))
    checks.equal("no releases", run([WHY, "none"], cwd=place), ("", "why: 0 of 0 releases not inside\n", 0))
    checks.equal("one outside", run([WHY, "one"], cwd=place), ("1 outside: no edge counts, total 0\n", "why: 1 of 1 releases not inside\n", 0))
    most = "".join(f"{number} outside: {ALL_COUNT}" for number in range(1, 513))
    checks.equal("the longest text", run([WHY, "most"], cwd=place), (most, "why: 512 of 512 releases not inside\n", 0))


def why_statuses(checks, place):
    """Folders without places, plain and explained, whatever is named; and words that do not make a question."""
    six(place / "six")
    folder(place / "no zone", zone=None)
    checks.equal("--explain, six", run([WHY, "--explain", "six"], cwd=place), (LEFT, TOLD, 0))
    checks.equal("--explain -- six 1", run([WHY, "--explain", "--", "six", "1"], cwd=place), (LINES[0], "", 0))
    for name, (zone, releases, expected) in NO_PLACES.items():
        folder(place / name, zone, releases)
        for named in ([], ["1"], ["x", "2"]):
            checks.equal(f"why {name} {named}", run([WHY, name, *named], cwd=place), (plain(expected), "", 1))
            checks.equal(f"why --explain {name} {named}", run([WHY, "--explain", name, *named], cwd=place), (expected, "", 1))
    for words in (["no zone"], ["no zone", "1"], ["--explain", "no zone"]):
        checks.equal(f"why {words}", run([WHY, *words], cwd=place), ("unreadable zone\n", "", 1))
    for words in (["nowhere"], ["nowhere", "1"], ["--explain", "nowhere"], ["--all"], ["six/zone.trk"]):
        checks.equal(f"why {words}", run([WHY, *words], cwd=place), (NO_FOLDER, "", 1))
    for words in ([], ["--explain"], ["--"], ["--explain", "--"]):
        checks.equal(f"why {words}", run([WHY, *words], cwd=place), ("", "why: it takes a folder; --help tells more\n", 2))


def why_unwritten(checks, place):
    """Outputs that take nothing, or not all."""
    six(place / "six")
    folder(place / "cut", releases=THREE[:-1])
    folder(place / "inside", releases=track(2, 2))
    reader, writer = os.pipe()
    os.close(reader)
    with open("/dev/full", "wb") as full:
        for words in (["six"], ["six", "1"], ["six", "7"], ["cut"], ["nowhere"]):
            checks.equal(f"why {words} to a full disk", run([WHY, *words], cwd=place, stdout=full), ("", LOST, 2))
            checks.equal(f"why {words} without output", run(["bash", "-c", '"$0" "$@" >&-', WHY, *words], cwd=place), ("", LOST, 2))
            checks.equal(f"why {words} to a pipe that nobody reads", run([WHY, *words], cwd=place, stdout=writer), ("", LOST, 2))
        nothing = ("", "why: 0 of 1 releases not inside\n", 0)
        checks.equal("nothing to write, to a full disk", run([WHY, "inside"], cwd=place, stdout=full), nothing)
    os.close(writer)
    # a disk that is full after so many bytes: what stands there is the start of the text, and the status is 2
    whole = LINES[1] + "7 no such release\n" + LINES[4]
    for size in [*range(0, len(whole), 5), len(whole) - 1, len(whole)]:
        path = place / "limited"
        with open(path, "wb") as limited:
            _, told, status = run([WHY, "six", "2", "7", "5"], cwd=place, stdout=limited, preexec_fn=files_of_at_most(size))
        expected = (whole[:size], LOST, 2) if size < len(whole) else (whole, "", 1)
        checks.equal(f"why to a disk of {size} bytes", (path.read_text(), told, status), expected)
    # no file stands between the program and the text, however long that is
    folder(place / "most", ZIGZAG, track(*[0] * 1024))
    found = run([WHY, "most", "3"], cwd=place, preexec_fn=files_of_at_most(0))
    checks.equal("a long text where no file can be written", found, (f"3 outside: {ALL_COUNT}", "", 0))


def why_unreadable(checks, place):
    """A folder and files that may not be read, by a user who is not root."""
    place.mkdir()
    for name in ("good", "closed", "closed zone", "closed releases"):
        six(place / name)
    (place / "closed zone" / "zone.trk").chmod(0)
    (place / "closed releases" / "release.trk").chmod(0)
    (place / "closed").chmod(0)
    if is_closed_to_nobody(WHY):
        return
    text = {"closed": "unreadable folder\n", "closed zone": "unreadable zone\n", "closed releases": "unreadable releases\n"}
    for name, expected in text.items():
        for words in ([name], [name, "1"], ["--explain", name]):
            checks.equal(f"why {words} without rights", run([WHY, *words], cwd=place, preexec_fn=as_nobody), (expected, "", 1))
    checks.equal("why with rights", run([WHY, "good"], cwd=place, preexec_fn=as_nobody), (LEFT, TOLD, 0))
    (place / "closed").chmod(0o755)


def why_torn(checks, place):
    """With a program whose text is torn, missing or of another form: nothing of it is put, whatever is named."""
    six(place / "six")
    why = copy_of(place / "copy", NEEDED, "exit 0\n", "why")
    path = str(place / "six")
    one, two, three = LINES[:3]
    whole = f"releases 3\n{one}{two}{three}"
    no_answer = ("no answer\n", "why: the program gave no whole text\n", 2)
    texts = [whole[:size] for size in (0, 5, 10, 11, 20, len(whole) - len(three), len(whole) - 10, len(whole) - 1)]
    texts += [
        # a line missing, and one too many
        *(f"releases 3\n{two}{three}", f"releases 3\n{one}{three}", f"releases 3\n{one}{two}", f"releases 2\n{one}{two}{three}", f"{whole}\n"),
        # a line twice, and two exchanged
        *(f"releases 3\n{one}{one}{three}", f"releases 3\n{two}{one}{three}", f"releases 3\n{one}{three}{two}"),
        # a line of the desk's, one without its number, one of no place, and an empty one
        *("releases 1\n1 inside\n", f"releases 1\n{one[2:]}", "releases 1\n1 beside: edge 1 up, total 1\n", f"releases 1\n {one}", "releases 1\n\n"),
        # no header, a bad one, and more than one
        *(one, "releases\n", "releases -1\n", f"releases 1 \n{one}", f"\n{whole}", f"{whole}{whole}", "\n"),
        # other texts, torn, or with something behind them
        *("refused zone 4", "refused zone 4 0", "refused zone 4\n", "refused zone 4 0\n\n", "refused zone 4 0 1\n", "refused folder 4 0\n"),
        *("unreadable zone", "unreadable\n", "unreadable zone 4\n", "unreadable zone\nreleases 0\n"),
    ]
    for text in texts:
        install(place / "copy", f"printf %s '{text}'\n", "why")
        checks.equal(f"why with the text {text!r}", why(path), no_answer)
        checks.equal(f"why 1 with the text {text!r}", why(path, "1"), no_answer)
    for text in (whole, OTHER, "refused zone 4 0\n", "unreadable zone\n"):
        install(place / "copy", f"printf %s '{text}'; exit 1\n", "why")
        checks.equal(f"why with a program that fails after {text!r}", why(path, "1"), no_answer)
    install(place / "copy", f"printf %s '{whole}'; kill -9 $$\n", "why")
    found = why(path, "1")
    checks.equal("why with a program that is killed", (found[0], found[2]), ("no answer\n", 2))
    # these are taken, so that the ones above are not refused for another reason
    install(place / "copy", f"printf %s '{whole}'\n", "why")
    checks.equal("why with a whole text", why(path, "3", "1"), (three + one, "", 0))
    install(place / "copy", "printf 'refused zone 4 0\\n'\n", "why")
    checks.equal("why with a refusal", why(path, "1"), ("refused zone 4 0\n", "", 1))


def why_alone(checks, place):
    """With the built program and few tools, with an old program, with none, and with one that is built."""
    why = copy_of(place / "alone", NEEDED, built(ROOT, "why"), "why")
    six(place / "alone" / "six")
    checks.equal("the program why alone", why("six", "5"), (LINES[4], "", 0))
    os.utime(place / "alone" / "repository" / "crates" / "why" / "src", (4e9, 4e9))
    old = "why: the program why is older than its sources, and there is no command rt to build it anew\n"
    checks.equal("an old program why", why("six", "5"), (LINES[4], old, 0))
    missing = copy_of(place / "unbuilt", [*NEEDED, "chmod"], None, "why")
    six(place / "unbuilt" / "six")
    told = "why: the program why is not built, and the Rattle toolchain that builds it is missing: there is no command rt on the path\n"
    checks.equal("no program why and no toolchain", missing("six"), ("", told, 2))
    install_rt(place / "unbuilt", "why", ("low", "middle", "why"), MAKE.format("why"))
    checks.equal("a first build of why", missing("six"), ("", PROVING.format("why") + "why: 0 of 0 releases not inside\n", 0))
