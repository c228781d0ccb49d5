"""The public calls of the repository's libraries, each with its contract, its promise and its law.

A call is a function that another crate can name: a `pub fn` of src/lib.rt or of a `pub mod`, one that a
`pub use` hands on, or, as crate::Type::name, a `pub fn` in an `impl` of a type that another crate can
name, and each function in an `impl` of a trait for such a type, of which a ghost member may be the promise.
What a derive adds is not looked at. A form of item that is not read here is an error, so that no call is missed.
"""

import re

CRATE = re.compile(r"^(\w+)(?: staticlib)?:", re.MULTILINE)
FOR_C = re.compile(r"^(\w+) staticlib: (\w+)", re.MULTILINE)
COMMENT = re.compile(r"//[^\n]*")
MODULE = re.compile(r"^(pub )?mod (\w+);", re.MULTILINE)
HANDED_ON = re.compile(r"^pub use ([^;]*);", re.MULTILINE)
SIGNATURE = r"fn (\w+)(?:<(?:[^()]|\([^()]*\))*?>)?\(([^()]*)\)\s*(?:-> ([^{]*?))?\s*(?=\{|requires\b|ensures\b)"
FUNCTION = re.compile(r'^(pub )?(?:extern "C" )?' + SIGNATURE, re.MULTILINE)
METHOD = re.compile(r"^    (?:(pub )|pub\(crate\) )?" + SIGNATURE, re.MULTILINE)
IMPL = re.compile(r"^impl(?:<[^(){}\n]*>)? ([\w:]+(?:<[^(){}\n]*>)? for )?(\w+)(?:<[^(){}\n]*>)? \{\n(.*?)^\}", re.MULTILINE | re.DOTALL)
CLAUSE = re.compile(r"\s*(requires|ensures)\b[^{]*\{")
DECLARED = re.compile(r"^(pub )?(?:struct|enum) (\w+)", re.MULTILINE)
ALIAS = re.compile(r"^pub type [^=]*= (?:\w+::)*(\w+)", re.MULTILINE)
TYPE = r"^pub (?:struct|enum|const|type) {}\b"
ITEM = re.compile(r'(pub )?(mod \w+;|use |(extern "C" )?fn |struct |enum |const \w+:|type )|impl\b|ghost use |#!?\[|[{}()]')  # how a line can start
MEMBER = re.compile(r"(pub |pub\(crate\) )?(fn |const \w+:|type )|ghost |#\[|[{}()]")  # and one in an `impl`, after its indentation
GIVES = re.compile(r"^    ghost \w+_gives = \{ (\w+Says) \};", re.MULTILINE)  # what a trait has for the contract of its function
PROMISED = re.compile(r"\s*(\w+Says)\b([^{}]*)")
USE = re.compile(r"^(?:ghost )?use (\S+)\.\{([^}]*)\}", re.MULTILINE)
PROMISE = re.compile(r"^(abbrev pub|pub record) (\w+Says)\b", re.MULTILINE)
LAW = re.compile(r"^( *)(?:pub )?(\S+_fixed) :(.*?)(?=^ *\2 |^ *unfolding |\Z)", re.MULTILINE | re.DOTALL)
STATEMENT = re.compile(r"(?:\{[^{}]*\}\s*)*((?:\([^()]*\)\s*)+)→ Fixes \((?:λ \([^()]*\)\. )?(\w+Says)\b([\w\s().]*)\)")

# Calls that read or write, each with the facts that its clauses state, one a clause: no contract can speak of all that they move, so
# theirs fixes no result and is no named promise.
MOVING = {
    "serve::desk": [],
    "serve::why": [],
    "system::bytes_of": ["IsWithin"],
    "system::filled": ["HoldsStart"],
    "system::read": ["ReadsAtMost", "ReadConsumes"],
    "system::tell": [],
    "system::write": [],
    "system::write_to": ["Appends", "AppendsStart"],
}


class Call:
    def __init__(self, crate, path, function, text, of="", gives=None):
        self.crate, self.path, self.name, self.clauses = crate, path, of + function[2], clauses_after(function.end(), text)
        self.parameters = [parameter(part.strip()) for part in function[3].split(",") if part.strip()]
        self.answers = function[4] is not None
        self.law, self.gives = function[2] + "_fixed", gives

    def __str__(self):
        return f"{self.crate}::{self.name}"

    def is_promised(self):
        return str(self) not in MOVING

    def faults_of_moving(self):
        """What is wrong with the contract of a call that reads or writes."""
        if self.requires():
            return ["it has a requires"]
        facts, text = MOVING[str(self)], self.path.read_text()
        found = [set(re.findall(r"\w+", text[start:end])) for _, start, end in self.clauses]
        if len(found) == len(facts) and all(fact in words for fact, words in zip(facts, found)):
            return []
        return [f"its clauses are not of {', '.join(facts)}" if facts else "it has a contract, and is listed as having none"]

    def requires(self):
        return any(kind == "requires" for kind, _, _ in self.clauses)

    def ensured(self):
        """Where its one ensures stands in the file, or None."""
        kinds = [kind for kind, _, _ in self.clauses]
        return self.clauses[0][1:] if kinds == ["ensures"] else None

    def promised(self):
        """Where it cites its promise: in its one ensures, or in the ghost member that its trait has for that."""
        return self.gives.span(1) if self.gives and not self.clauses else self.ensured()

    def promise(self):
        """The promise that its contract cites, as it has to."""
        if self.requires():
            raise Wrong("it has a requires")
        if self.gives and not self.clauses:
            return self.gives[1]
        if not self.ensured():
            raise Wrong(f"it has {len(self.clauses) or 'no'} ensures")
        start, end = self.ensured()
        cited = PROMISED.fullmatch(self.path.read_text(), start, end)
        if not cited:
            raise Wrong("its ensures is not one promise `…Says`, alone")
        name, arguments = cited.groups()
        if sorted(arguments.split()) != sorted(self.arguments()):
            raise Wrong(f"its ensures has to cite {name} {' '.join(self.arguments())}")
        return name

    def arguments(self):
        """What it is called with, its result, and what it leaves in memory that it was lent to write."""
        before = [name + (".old" if kind.startswith("&mut ") else ".now" if kind.startswith("&") else "") for name, kind in self.parameters]
        after = [f"{name}.new" for name, kind in self.parameters if kind.startswith("&mut ")]
        return before + ["result"] * self.answers + after


def parameter(text):
    """Its name and its type; &mut self is of type &mut Self."""
    name, typed, kind = text.removeprefix("mut ").partition(": ")
    return (name, kind) if typed else ("self", name.replace("self", "Self"))


class Wrong(Exception):
    pass


# ---- the libraries


def crates_in(root):
    return CRATE.findall((root / "crates.txt").read_text())


def promising(root, crate):
    """The crate that has the promises of a crate's calls: itself, or of a static library the crate that it hands on to C."""
    return dict(FOR_C.findall((root / "crates.txt").read_text())).get(crate, crate)


def calls_in(root):
    calls = {}
    for crate in crates_in(root):
        source = root / "crates" / crate / "src"
        if (source / "lib.rt").exists():
            for path in source.glob("**/*.rt"):
                all_read(path)
            calls |= {(call.path, call.name): call for call in calls_of(crate, source)}
    return list(calls.values())


def all_read(path):
    text = code_of(path)
    read = {line_at(found.start(), text) for form in (FUNCTION, METHOD, IMPL) for found in form.finditer(text)}
    in_impl = {line for impl in IMPL.finditer(text) for line in range(line_at(impl.start(3), text), line_at(impl.end(3), text))}
    for number, line in enumerate(text.split("\n")):
        start, forms = (line.removeprefix("    "), MEMBER) if number in in_impl else (line, ITEM)
        item = forms.match(start)
        if start[:1].strip() and (not item or item[0].endswith(("fn ", "impl")) and number not in read):
            raise Wrong(f"{path}:{number + 1}: tests/calls.py does not read `{line}`")


def line_at(place, text):
    return text.count("\n", 0, place)


def calls_of(crate, source):
    """The calls of a library: the functions that other crates can name, and those of the types that they can name."""
    types = set()
    for path, folder in public_modules(source / "lib.rt", source):
        text = code_of(path)
        yield from (Call(crate, path, function, text) for function in FUNCTION.finditer(text) if function[1])
        types |= {name for public, name in DECLARED.findall(text) if public} | set(ALIAS.findall(text))
        for handed in HANDED_ON.findall(text):
            for handed_path in paths_of(handed):
                yield from handed_on(crate, folder, handed_path)
                types.add(handed_path.split("::")[-1])
    yield from methods_of(crate, sorted(source.glob("**/*.rt")), types)


def public_modules(path, folder):
    """A public module, whose own modules stand in the folder, and those of them that are public, each with its folder."""
    yield path, folder
    for public, module in MODULE.findall(code_of(path)):
        if public:
            yield from public_modules(folder / f"{module}.rt", folder / module)


def methods_of(crate, paths, types):
    """The calls in each `impl` of these types, which may stand in any file."""
    declared = {path: {name: bool(public) for public, name in DECLARED.findall(code_of(path))} for path in paths}
    for path in paths:
        text = code_of(path)
        for impl in IMPL.finditer(text):
            trait, name, _ = impl.groups()
            if not any(name in names for names in declared.values()):
                raise Wrong(f"{path}: tests/calls.py does not find the type of `impl {name}`")
            if name in types and declared[path].get(name, True):
                methods = METHOD.finditer(text, *impl.span(3))
                gives = GIVES.search(text, *impl.span(3)) if trait else None
                yield from (Call(crate, path, method, text, f"{name}::", gives) for method in methods if trait or method[1])


def paths_of(handed):
    """The paths of a `pub use`, of which the last part may be several names in braces."""
    start, brace, names = handed.partition("{")
    return [start + name.strip() for name in names.rstrip("}").split(",") if name.strip()] if brace else [start]


def handed_on(crate, folder, handed):
    *modules, item = handed.split("::")
    path = folder.joinpath(*modules).with_suffix(".rt")
    text = code_of(path) if path.exists() else ""
    calls = [Call(crate, path, function, text) for function in FUNCTION.finditer(text) if function[2] == item]
    if not calls and not re.search(TYPE.format(re.escape(item)), text, re.MULTILINE):
        raise Wrong(f"{crate}: tests/calls.py does not find what `pub use {handed}` hands on")
    return calls


def code_of(path):
    """A source with its comments blanked, so that every place in it stays."""
    return COMMENT.sub(lambda comment: " " * len(comment[0]), path.read_text())


def clauses_after(place, text):
    """The kind of each clause of a contract, and where its text starts and ends."""
    clauses = []
    while clause := CLAUSE.match(text, place):
        depth, place = 1, clause.end()
        while depth:
            depth += {"{": 1, "}": -1}.get(text[place], 0)
            place += 1
        clauses.append((clause[1], clause.end(), place - 1))
    return clauses


# ---- promises and laws


class Law:
    """A law NAME_fixed: its file, and its statement unless that depends on a section."""

    def __init__(self, path, section, statement):
        self.path = path
        self.statement = "" if section else " ".join(statement.split())

    def promise(self):
        """The promise that it says to have one result for every input, with no hypothesis."""
        fixes = STATEMENT.fullmatch(self.statement)
        if not fixes:
            return None
        bound = {name for names in re.findall(r"\(([^:()]*):", fixes[1]) for name in names.split()}
        return fixes[2] if bound <= set(re.findall(r"\w+", fixes[3])) else None


def promises_of(root, crate):
    """The file in which each promise of a crate is declared."""
    return {name: path for path in antt_in(root, crate, "specs") for _, name in PROMISE.findall(path.read_text())}


def laws_of(root, crate):
    laws = ((path, law) for path in antt_in(root, crate, "proofs") for law in LAW.finditer(path.read_text()))
    return {law[2]: Law(path, law[1], law[3]) for path, law in laws}


def antt_in(root, crate, part):
    return sorted((root / "crates" / crate / part).glob("**/*.antt"))


def uses(root, path, name, specs):
    """Whether a file has this name from that file of its own crate's specs/, and from nowhere else."""
    crate, _, *modules = specs.relative_to(root / "crates").with_suffix("").parts
    used = [(module, item.split()) for module, items in USE.findall(path.read_text()) for item in items.split(",")]
    found = [(module, item) for module, item in used if item[-1:] == [name]]
    return found == [(f"Rattle.{crate}.specs.{'.'.join(modules)}", [name])]
