#!/usr/bin/env python3
"""Brings the repository's own definitions and lemmas to snake case, once, right after port.py.

    tools/port_names.py

What turns: a name that a signature of specs/ or of a law file declares (a definition, a law, a field, a constructor), and a
name that such a file binds (a parameter, a variable), wherever it has a capital behind a small letter or a dash: sideOf to side_of, write-then-read
to write_then_read. Types and facts (upper camel case) stay, and so do the names of src/, what the toolchain makes, what its library has, strings, inputs
and outputs. In proofs of functions and in clauses only what specs/ and laws declare turns. In edits the text turns as the file does that it speaks of.
In documents the code spans turn. It prints names that fall together, and then writes nothing.
"""

import collections
import re
import sys
from pathlib import Path

ROOT = Path(__file__).resolve().parent.parent
CRATES = ROOT / "crates"
WORD = re.compile(r'[^\s(){}.;,@"«»]+')
SIGNATURE = re.compile(r"^\s*(?:(?:abbrev|unfoldable|pub|private) )*([^\s(){}.;,]+)(?: \{[^{}\n]*\})* :(?:\s|$)", re.MULTILINE)
QUIET = re.compile(r'"(?:[^"\\\n]|\\.)*"|(?:(?<=[\s(){}.;,])|^)--[^\n]*', re.MULTILINE)
USE = re.compile(r"^(?:pub )?use ([^\s{]+?)\.?\{([^}]*)\}", re.MULTILINE)
CLAUSE_USE = re.compile(r"ghost\s+use\s+Rattle\.(\w+)\.[^;{]*\{([^}]*)\};")
TURNS = re.compile(r"^[a-z][^\s]*[a-z0-9'][A-Z]|^[a-zA-Z](?:.*\w)?-\w")
# Behind an operator's sign a plain word stands with _, as it does in the library; a dash is left where two names are joined.
SIGNED = {name: name.replace("-", "_") for name in "*ℤ-assoc *ℤ-cross *ℤ-left-comm +ℤ-left-comm <-parts ≡-parts ≤-parts ≈-trans ≤-both ≤-refl".split()}
SIGNED["negℤ-*ℤ"] = "neg_ℤ-*ℤ"
LOCAL = re.compile(r"^(?:(?:abbrev|pub) )*([^\s(){}.;,]+) :(?! goal\.)|\blet ([^\s(){}.;,]+) (?=[:=] )", re.MULTILINE)
SPAN = re.compile(r"`[^`\n]+`")
OWN = {path.name for path in CRATES.iterdir()}


# Lemmas that would fall together with another name.
MET = set()


def turned(name):
    """sideOf, write-then-read and equalPQ as side_of, write_then_read and equal_pq; a fact keeps its capital."""
    return plainly(name) + "_lem" if name in MET else plainly(name)


def turns(name):
    return name in SIGNED or bool(TURNS.search(name))


def plainly(name):
    if name in SIGNED:
        return SIGNED[name]
    words = []
    for part in name.split("-"):
        if part[:1].isupper():
            words.append(part)
        else:
            words.append(re.sub(r"(?<=[a-z0-9])([A-Z]+)", lambda m: "_" + m[1].lower(), part))
    return "_".join(words)


def is_proof(path):
    return path.name in ("Proof.antt", "Answers.antt", "Invariants.antt")


def is_own(path):
    parts = path.split(".")
    return parts[0] == "Rattle" and len(parts) > 1 and parts[1] in OWN and parts[-1] not in ("Tie", "Lts", "Reads", "Statement")


def files(pattern):
    """The files of the crates, without those that a build made."""
    return sorted(path for path in CRATES.rglob(pattern) if path.relative_to(CRATES).parts[1] != "out")


def lent(text):
    """The names that a file takes from the toolchain."""
    names = set()
    for use in USE.finditer(text):
        if not is_own(use[1]):
            for item in use[2].split(","):
                names.add(item.strip().split(" as ")[-1])
    return names


def quieted(text):
    """The text with blanks for strings and comments, of the same length."""
    return QUIET.sub(lambda m: " " * len(m[0]), text)


def words(text):
    """Each word of the code: where it is, what it is, whether it stands behind a dot."""
    code = quieted(text)
    for m in WORD.finditer(code):
        yield m.start(), m[0], m.start() > 0 and code[m.start() - 1] == "."


def table():
    """The names that turn everywhere, and those that turn in a law file alone, by file."""
    declared, bound = set(), collections.defaultdict(set)
    for path in files("*.antt"):
        if is_proof(path):
            continue
        text = path.read_text()
        code, from_kit = quieted(text), lent(text)
        for m in SIGNATURE.finditer(code):
            if turns(m[1]) and m[1] not in from_kit:
                declared.add(m[1])
        for _, word, dotted in words(text):
            if turns(word) and not dotted and word not in from_kit:
                bound[path].add(word)
    return declared, bound


def locals_of(text):
    """What a proof of a function names for itself, and not after a goal."""
    found = {m[1] or m[2] for m in LOCAL.finditer(quieted(text))}
    return {name for name in found if turns(name) and not re.search(rf"^pub {re.escape(name)} : goal", text, re.MULTILINE)}


def rewritten(text, turning, dotted_turning):
    pieces, at = [], 0
    for start, word, dotted in words(text):
        if word in (dotted_turning if dotted else turning):
            pieces += [text[at:start], turned(word)]
            at = start + len(word)
    return "".join(pieces) + text[at:]


def in_comments(text, names):
    """Code spans of comments, and bare names in them that only a name can be."""
    def comment(m):
        if not m[0].startswith("--"):
            return m[0]
        return SPAN.sub(lambda s: spans(s[0], names), m[0])
    return QUIET.sub(comment, text)


def spans(text, names):
    return WORD.sub(lambda m: turned(m[0]) if m[0] in names else m[0], text[1:-1]).join("``")


def clauses(text, names):
    """A source file: the names that its ghost use items bring from specs/, in clauses; its comments' code spans."""
    brought = set()
    for use in CLAUSE_USE.finditer(text):
        for item in use[2].split(","):
            brought |= {word for word in item.strip().split(" as ") if word in names}
    lines = []
    for line in text.split("\n"):
        if line.lstrip().startswith("//"):
            lines.append(SPAN.sub(lambda s: spans(s[0], names), line))
        else:
            lines.append(re.sub(r"(?<![\w-])[A-Za-z][\w'-]*", lambda m: turned(m[0]) if m[0] in brought else m[0], line))
    return "\n".join(lines)


def edit(path, names):
    """A wrong edit: what it says of specs/ turns, the names that port.py turned in the file itself too, and so do paths and operators."""
    lines, target = [], None
    for line in path.read_text().split("\n"):
        if line.startswith("file: "):
            target = path.parent.parent / line[len("file: "):].strip()
        head = line[:5]
        if head in ("old: ", "new: ") and target.suffix == ".antt":
            text = line[5:]
            found = {word for _, word, _ in words(text) if turns(word)}
            text = rewritten(text, found, found)
            text = re.sub(r"Rattle·(\w+)(?:·specs)?\.specs", r"Rattle.\1.specs", text)
            if text.startswith("use "):
                text = re.sub(r"(?<=[{ ])_(\S+?)_(?=[,}])", r"◌\1◌", text)
            line = head + re.sub(r"(?<=[\w)]) \.(?=[a-z])", ".", text)
        lines.append(line)
    return "\n".join(lines)


def main():
    names, bound = table()
    meet(names, bound)
    changes, faults = {}, []
    for path in files("*.antt"):
        text = path.read_text()
        if is_proof(path):
            from_kit = lent(text)
            turning = {n for n in names | locals_of(text) if n not in from_kit}
        else:
            turning = bound[path]
        here = {word for _, word, dotted in words(text) if not dotted}
        for name in sorted(turning & here):
            if turned(name) in here:
                faults.append(f"{path.relative_to(ROOT)}: {name} and {turned(name)}")
        for new, olds in together(turning & here).items():
            if len({turned(old) for old in olds}) < len(olds):
                faults.append(f"{path.relative_to(ROOT)}: {', '.join(sorted(olds))} would all be {new}")
        changes[path] = in_comments(rewritten(text, turning, names), names)
    for path in files("*.rt"):
        changes[path] = clauses(path.read_text(), names)
    for name in sorted(MET):
        print(f"look: {name} is {turned(name)}")
    if faults:
        print("\n".join("together: " + fault for fault in faults))
        return 1
    for path in files("*.edit"):
        changes[path] = edit(path, names)
    for path in [*sorted((ROOT / "docs").rglob("*.md")), ROOT / "README.md"]:
        changes[path] = SPAN.sub(lambda s: spans(s[0], names), path.read_text())
    for path, text in changes.items():
        if text != path.read_text():
            path.write_text(text)
    print(f"{len(names)} names are in snake case")
    return 0


def meet(names, bound):
    """Notes the lemmas, whose names have dashes, that would get the name of something else."""
    for olds in together(names).values():
        MET.update(name for name in olds if "-" in name)
    for path in files("*.antt"):
        here = {word for _, word, dotted in words(path.read_text()) if not dotted}
        MET.update(name for name in names & here if "-" in name and plainly(name) in here)
        for olds in together(here & (names | bound[path])).values():
            MET.update(name for name in olds if "-" in name)


def together(names):
    """The names that would be one, if there are several, by what they would be."""
    found = collections.defaultdict(set)
    for name in names:
        found[plainly(name)].add(name)
    return {new: olds for new, olds in found.items() if len(olds) > 1}


if __name__ == "__main__":
    sys.exit(main())
