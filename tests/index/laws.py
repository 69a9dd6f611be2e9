"""The laws of each function, in docs/FUNCTIONS.md.

A sweep is a family of laws that say one property, each of one function: `Live` of `parse-line-tail`, of `parse-block`, and so on. Of the
table of sweeps the last cells are written by `tests/index/run --write`, and so is the whole table of laws, from the statements in the specs.

Faults: a law is in no row; a row names a law that is not in the file beside it, or that is about another function; a property of
functions is in no sweep; a sweep's property, or a law whose name starts as the sweep says, is not in the specs.
"""
import re

from common import fault, quoted, read, rows, section
from specs import functions_of, modules, names, signatures, split, tree

TABLE = "docs/FUNCTIONS.md"
EVERY = "every function"


class Part:
    """Where a crate has its definitions and its laws. `functions` is the type of what properties are about, `ways` the file of definitions
    that put functions together."""

    def __init__(self, title, folder, definitions, laws, functions, ways=None):
        self.title, self.folder, self.definitions, self.laws = title, folder, definitions, laws
        self.functions, self.ways = re.compile(functions), ways

    def place(self, file):
        """A law's file as the tables have it."""
        return file.removeprefix("../").replace("Laws/", "")


def parts():
    lexer, grammar = "crates/lexer/specs", "crates/grammar/specs"
    others = ["Syntax", "Chars", "Lexer", "Tokens", "Code", "Examples"]
    lexed = [file for file in modules(f"{lexer}/Lib.antt") if file not in others]
    parsed = [f"{laws}/{file}" for laws in ["Laws", "../proofs/Laws"] for file in modules(f"{grammar}/{laws}.antt")]
    definitions = ["Message", "Run", "Look", "Nesting", "Bump", "Path", "Line", "Instruction", "Block", "Item"]
    return [
        Part("Laws of the lexer", lexer, ["Chars", "Lexer", "Tokens"], lexed, "LexRule"),
        Part("Laws of the grammar", grammar, definitions, parsed, r"P [A-Z]\w*|Round L", "Run"),
    ]


class Sweep:
    def __init__(self, cells):
        self.start, self.properties, self.says = cells[0].strip("`"), quoted(cells[1]), cells[2]


class Index:
    """The laws of a part: `laws` has for each definition its laws with their files, `files` for each sweep the files of its laws."""

    def __init__(self, part, sweeps):
        self.part, self.sweeps = part, sweeps
        self.stated = {file: signatures(f"{part.folder}/{file}.antt") for file in dict.fromkeys(part.definitions + part.laws)}
        self.defined = {}
        for file, found in self.stated.items():
            for one in found:
                function = "→" in one.type if file in part.definitions else re.search(r"(^|→ )P \w+$", one.type)
                if one.kind in ("abbrev", "unfoldable") and (function or re.match(r"P |LexRule$", one.type)):
                    self.defined.setdefault(one.name, file)
        self.ways = {name for name, file in self.defined.items() if file == part.ways}
        self.properties = {one.name for file in part.laws for one in self.stated[file] if self.is_property(one)}
        self.laws, self.files, self.started = {EVERY: []}, {sweep: [] for sweep in sweeps}, set()
        for file in part.laws:
            for one in self.stated[file]:
                if one.kind == "law":
                    self.add(file, one)

    def is_property(self, one):
        """Whether a record, or an abbreviation of one, says something of a function."""
        form = r"[({][^(){}]* : ([^(){}]*)[)}]$" if one.kind == "record" else r"→ ([^→]*) → Type 0$"
        last = re.search(form, one.type)
        return one.kind in ("record", "abbrev") and bool(last and self.part.functions.fullmatch(last[1]))

    def add(self, file, law):
        sweep, about = self.about(law)
        for name in dict.fromkeys(about):
            self.laws.setdefault(name, []).append((file, law))
        if sweep:
            if file not in self.files[sweep]:
                self.files[sweep].append(file)
            if law.name.startswith(sweep.start):
                self.started.add(sweep)

    def about(self, law):
        """The sweep of a law, if it is of one, and what it is about."""
        *premises, last = split(tree(law.type), "→")
        pieces = [piece for piece in split(last, "×") if piece]
        for sweep in self.sweeps:
            if any(piece[0] in self.properties and piece[0] in sweep.properties for piece in pieces if isinstance(piece[0], str)):
                return sweep, [name for piece in pieces for name in functions_of(piece[-1:], self.defined, self.ways)] or [EVERY]
        found = [name for name in names(split(last, "≡", "≤", "<")[0]) if name in self.defined]
        for sweep in self.sweeps:
            if law.name.startswith(sweep.start) and any(word in sweep.properties for words in premises for word in words):
                return sweep, [name for name in found if name not in ("at", "past", "skip", "anyone")] or found
        return None, found if law.public or law.name.startswith(tuple(sweep.start for sweep in self.sweeps)) else []

    def check_sweeps(self):
        told = [name for sweep in self.sweeps for name in sweep.properties]
        kinds = {one.name for file in self.part.laws for one in self.stated[file] if one.kind == "data"} | self.properties
        for name in sorted(self.properties - set(told)):
            fault(f"{TABLE}, {self.part.title}: the property {name} is in no sweep")
        for name in told:
            if name not in kinds:
                fault(f"{TABLE}, {self.part.title}: there is no property {name}")
        for sweep in self.sweeps:
            if sweep not in self.started:
                fault(f"{TABLE}, {self.part.title}: there is no law of the sweep {sweep.start} with such a name")

    # ---- The tables.

    def sweep_table(self):
        lines = ["| laws | property | of a function they say | in |", "|---|---|---|---|"]
        for sweep in self.sweeps:
            properties = ", ".join(f"`{name}`" for name in sweep.properties)
            files = ", ".join(self.part.place(file) for file in self.files[sweep])
            lines.append(f"| `{sweep.start}` | {properties} | {sweep.says} | {files} |")
        return lines

    def law_table(self):
        lines = ["| definition | in | its laws |", "|---|---|---|"]
        for name in [EVERY, *self.defined]:
            if laws := self.laws.get(name):
                cell = []
                for file in dict.fromkeys(file for file, _ in laws):
                    here = [f"`{law.name}`" if law.public else f"(`{law.name}`)" for place, law in laws if place == file]
                    cell.append(f"{', '.join(here)} in {self.part.place(file)}")
                definition = f"`{name}` | {self.defined[name]}" if name in self.defined else f"{name} |"
                lines.append(f"| {definition} | {'; '.join(cell)} |")
        return lines

    def check_laws(self, table):
        """Compares the rows of a table with the laws."""
        there = {(name, self.part.place(file), law.name) for name, laws in self.laws.items() for file, law in laws}
        named = set()
        for cells in table:
            for piece in cells[2].split(";"):
                laws, _, file = piece.rpartition(" in ")
                named |= {(cells[0].strip("`"), file.strip(), law) for law in quoted(laws)}
        stated = {(self.part.place(file), one.name) for file in self.part.laws for one in self.stated[file]}
        for name, file, law in sorted(there - named):
            fault(f"{TABLE}, {self.part.title}: {law} in {file}, a law of {name}, is not in its row")
        for name, file, law in sorted(named - there):
            known = f"{law} in {file} is no law of {name}" if (file, law) in stated else f"{name}: there is no {law} in {file}"
            fault(f"{TABLE}, {self.part.title}: {known}")


def tables(text, part):
    """The two tables of a part: a row of the sweeps has four cells, one of the laws three."""
    found = rows(section(text, f"### {part.title}"))
    return [Sweep(cells) for cells in found if len(cells) == 4], [cells for cells in found if len(cells) == 3]


def written(text, index):
    """The text with both tables of a part as they should be."""
    old = section(text, f"### {index.part.title}")
    new = re.sub(r"^\|.*\n(\|.*\n)*", "TABLE\n", old, flags=re.MULTILINE)
    for table in [index.sweep_table(), index.law_table()]:
        new = new.replace("TABLE\n", "\n".join(table) + "\n", 1)
    return text.replace(old, new, 1)


def write():
    text = read(TABLE)
    for part in parts():
        text = written(text, Index(part, tables(text, part)[0]))
    with open(TABLE, "w", encoding="utf-8") as file:
        file.write(text)


def check():
    """Compares the tables with the specs, and says how many laws there are."""
    text, laws = read(TABLE), set()
    for part in parts():
        sweeps, table = tables(text, part)
        if not sweeps or not table:
            fault(f"{TABLE}: there is no section '{part.title}' with a table of sweeps and a table of laws")
            continue
        index = Index(part, sweeps)
        index.check_sweeps()
        index.check_laws(table)
        if written(text, index) != text:
            fault(f"{TABLE}, {part.title}: `tests/index/run --write` writes these tables anew")
        laws |= {(part.title, file, law.name) for found in index.laws.values() for file, law in found}
    return f"{len(laws)} laws of functions"
