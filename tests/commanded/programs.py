"""The desk without a toolchain, with programs that fail, and while its program is built: in a copy of what a command needs."""

import os
import shutil
from pathlib import Path

from commanded import CUT, OTHER, PLACES, ROOT, THREE, built, folder, run

MACHINE = os.uname().machine
NEEDED = ["bash", "cat", "chmod", "find", "getconf", "mktemp", "nproc", "qemu-x86_64", "readlink", "rm", "sort", "touch", "uname", "xargs"]

# what makes a program that reports nothing, and runs it
MAKE = "printf '#!/bin/sh\nprintf \"releases 0\\\\n\"' > out/{0}\nchmod +x out/{0}\nout/{0} >&3"
PROVING = "Proving and building the program {0}; this takes some minutes.\n1 of 3 low\n2 of 3 middle\n3 of 3 {0}\n"


def copy_of(place, tools, program, command="desk"):
    """The repository as a command needs it, with `program` for that command's own and these tools on the path alone."""
    for part in ("src", "out"):
        (place / "repository" / "crates" / command / part).mkdir(parents=True)
    for name in ("tools", "docs"):
        (place / "repository" / name).symlink_to(ROOT / name)
    shutil.copy(ROOT / command, place / "repository" / command)
    (place / "repository" / "crates.txt").write_text(f"low:\nmiddle: low io # of it\nother staticlib: low\n{command}: middle low\n")
    (place / "path").mkdir()
    for name in tools:
        if shutil.which(name):
            (place / "path" / name).symlink_to(shutil.which(name))
    if MACHINE != "x86_64" and not isinstance(program, Path):
        run_scripts(place / "path" / "qemu-x86_64")
    if program:
        install(place, program, command)
    environment = {"PATH": str(place / "path"), "TMPDIR": str(place)}
    return lambda *words, **options: run([str(place / "repository" / command), *words], cwd=place, env=environment, **options)


def run_scripts(emulator):
    """For a machine of another kind, on which an emulator starts the programs: here it starts scripts that stand in for them."""
    emulator.unlink(missing_ok=True)
    emulator.write_text('#!/bin/sh\nexec "$@"\n')
    emulator.chmod(0o755)


def install(place, program, command="desk"):
    path = built(place / "repository", command)
    if isinstance(program, Path):
        shutil.copy(program, path)
    else:
        path.write_text("#!/bin/sh\n" + program)
    path.chmod(0o755)


def install_rt(place, command, proved, then):
    """A toolchain that proves these crates, where the command's program stands, and then does so."""
    path = place / "path" / "rt"
    steps = "".join(f"echo fn {crate}::x: proved\necho crate {crate}: modules loaded=1 checked=1\necho logic=proved functions=1\n" for crate in proved)
    path.write_text(f'#!/bin/bash\n[ "$* ${{PWD##*/}}" = "run {command}" ] || exit 9\nexec 3>&1 >&2\n{steps}{then}\n')
    path.chmod(0o755)


def alone(checks, place):
    """With the built program alone, with few tools, and with none."""
    desk = copy_of(place / "alone", NEEDED, built(ROOT, "desk"))
    folder(place / "alone" / "good")
    folder(place / "alone" / "cut", releases=THREE[:-1])
    checks.equal("the built program alone", desk("good"), (f"== good\n{PLACES}", "", 0))
    both = (f"== cut\n{CUT}== good\n{PLACES}", 1)
    for tools in (NEEDED, [name for name in NEEDED if name != "xargs"], [name for name in NEEDED if name not in ("nproc", "getconf")]):
        shutil.rmtree(place / "tools", ignore_errors=True)
        few = copy_of(place / "tools", tools, built(ROOT, "desk"))
        found = few("--all", str(place / "alone"))
        checks.equal("an archive with few tools", (found[0].replace(f"{place}/alone/", ""), found[2]), both)
    os.utime(place / "alone" / "repository" / "crates" / "desk" / "src", (4e9, 4e9))
    old = "desk: the program desk is older than its sources, and there is no command rt to build it anew\n"
    checks.equal("an old program", desk("good"), (f"== good\n{PLACES}", old, 0))
    missing = copy_of(place / "unbuilt", NEEDED, None)
    found = missing("good")
    checks.equal("no program and no toolchain", (found[0], found[2], "there is no command rt" in found[1]), ("", 2, True))


def torn(checks, place):
    """With a program whose text is torn or missing."""
    folder(place / "good")
    desk = copy_of(place / "copy", NEEDED, "exit 0\n")
    good = str(place / "good")
    texts = ["", "releases 3\\n1 inside\\n", "releases 3\\n1 inside\\n2 border\\n3 outs", "releases 1\\n1 inside\\n2 inside\\n", "releases", "refused zone 4",
             "refused zone 4 0", "unreadable\\n", "unreadable zone\\nreleases 0\\n", "\\n", "refused zone 4 0\\n\\n"]
    for text in texts:
        install(place / "copy", f"printf '{text}'\n")
        told = f"desk: the program gave no whole text for {good}\n"
        checks.equal(f"the text {text}", desk(good), (f"== {good}\nno answer\n", told, 2))
    install(place / "copy", "printf 'releases 0\\n'; kill -9 $$\n")
    found = desk(good)
    checks.equal("a program that is killed", (found[0], found[2]), (f"== {good}\nno answer\n", 2))
    install(place / "copy", f"case $PWD in *bad) exit 0 ;; esac; printf 'releases 0\\n'\n")
    folder(place / "bad")
    bad = str(place / "bad")
    told = f"desk: the program gave no whole text for {bad}\ndesk: 2 folders: 1 reported, 0 refused, 0 unreadable, 0 missing, 1 without an answer\n"
    checks.equal("a torn text does not end the run", desk(bad, good), (f"== {bad}\nno answer\n== {good}\n{OTHER}", told, 2))


def building(checks, place):
    """What is shown while the program is built."""
    desk = copy_of(place, NEEDED, None)
    folder(place / "good")
    install_rt(place, "desk", ("low", "middle", "desk"), MAKE.format("desk"))
    checks.equal("a first build", desk("good"), (f"== good\n{OTHER}", PROVING.format("desk"), 0))
    install_rt(place, "desk", (), "exit 9")
    checks.equal("a second run", desk("good"), (f"== good\n{OTHER}", "", 0))
    os.utime(place / "repository" / "crates" / "desk" / "src", (4e9, 4e9))
    install_rt(place, "desk", ("middle",), "echo x: not proved; exit 1")
    told = "2 of 3 middle\nx: not proved\ndesk: the program desk could not be built\n"
    checks.equal("a build that fails", desk("good"), ("", told, 2))
