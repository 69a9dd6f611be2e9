"""The tables of docs/FUNCTIONS.md that lead from each Rust function to its definition, code and proof.

Faults: a Rust function is in no row, or in two, or out of order; a row names one that is not there; a file or folder does not exist;
a name is not defined in the file beside it; the proofs of a row are not those of its code.
"""
import glob
import os
import re
import sys

from common import fault, quoted, read, rows, section

TABLE = "docs/FUNCTIONS.md"
SOURCES = os.environ.get("MASM_CST_SRC") or "../shared/docs/src/crates/assembly-syntax-cst/src"
OWNER = re.compile(r"(?:impl(?:<.*?>)?\s+(?:.* for )?|(?:pub )?trait )([\w:]+)")
FUNCTION = re.compile(r'\s*(?:pub(?:\([^)]*\))? )?(?:(?:const|async|unsafe|extern "C") )*fn (\w+)')
# What is written of a proof: loops and measures, answers to goals, or a whole proof.
FILES = ["Invariants", "Answers", "Proof"]
ENUM = re.compile(r"(?:pub )?enum (\w+)")


def functions(path):
    """The functions outside #[cfg(test)], methods with their types; the sources are laid out by rustfmt."""
    names, owner, skipped = [], "", None
    for line in read(path).splitlines():
        indent = len(line) - len(line.lstrip())
        if skipped is not None:
            if line.strip() and indent == skipped and line.endswith(("}", ";")):
                skipped = None
            continue
        if line.strip() == "#[cfg(test)]":
            skipped = indent
        elif found := OWNER.match(line):
            owner = found[1] + "::"
        elif found := FUNCTION.match(line):
            names.append((owner if indent else "") + found[1])
        elif (found := ENUM.match(line)) and path.endswith("/syntax.rs"):
            names.append(found[1])
    return names


def defined(name, path):
    name = re.escape(name)
    if path.endswith(".antt"):
        form = rf"^(?:\s*(?:abbrev|unfoldable) pub|pub (?:record|data)|pub) {name} "
    else:
        form = rf'^\s*(?:pub(?:\(crate\))? )?(?:(?:extern "C" )?fn {name}[(<]|(?:struct|enum|const|static) {name}\b)'
    return re.search(form, read(path), re.MULTILINE)


def named(row, cell, ending):
    """The names of a cell, each with the file beside it."""
    pairs = []
    for part in cell.split(";"):
        names = quoted(part)
        paths = [path.rstrip(",:.") for path in re.findall(r"crates/\S+", part)]
        for path in paths:
            if not os.path.isfile(path):
                fault(f"{row}: there is no file {path}")
            elif not path.endswith(ending):
                fault(f"{row}: {path} is no {ending} file")
            for name in names:
                if os.path.isfile(path) and not defined(name, path):
                    fault(f"{row}: {name} is not in {path}")
                pairs.append((name, path))
        if len(paths) > 1 or bool(names) != bool(paths):
            fault(f"{row}: not names and one file: {part.strip()}")
    return pairs


def proofs_of(name, path):
    """Where the proof of a function lies: under the code's path, a method's under its type's, or in the folder of its cycle."""
    place = re.fullmatch(r"crates/(\w+)/src/(.+)\.rt", path)
    if not place:
        return []
    base = f"crates/{place[1]}/proofs" + ("" if place[2] == "lib" else f"/{place[2]}")
    cycle = re.search(rf"^#\[cycle\((\w+)\)\]\n(?:#\[.*\n)*(?:pub(?:\(crate\))? )?fn {re.escape(name)}\b", read(path), re.MULTILINE)
    folders = [f"{base}/+{cycle[1]}"] if cycle else [f"{base}/{name}"] + glob.glob(f"crates/{place[1]}/proofs/**/[A-Z]*/{name}", recursive=True)
    return [folder for folder in folders if any(os.path.exists(f"{folder}/{file}.antt") for file in FILES)]


def proved(row, cell, code):
    """The proofs of a row: those named must be those of its code."""
    wanted = {proof: name for name, path in code for proof in proofs_of(name, path)}
    found = set()
    for path in re.findall(r"crates/[^\s;,]+", cell):
        there = glob.glob(path)
        if len(there) != 1:
            fault(f"{row}: there is no proof {path}" if not there else f"{row}: {path} is more than one")
        elif there[0] not in wanted:
            fault(f"{row}: {path} is not the proof of a function named beside it")
        found.update(there)
    for proof in wanted.keys() - found:
        fault(f"{row}: {proof}, the proof of {wanted[proof]}, is not named")
    if not cell:
        fault(f"{row}: nothing is said about the proof")
    return found


def same_order(source, rust, names):
    for name in rust:
        if name not in names:
            fault(f"{source}: {name} is in no row")
    for name in dict.fromkeys(names):
        if name not in rust:
            fault(f"{source}: a row names {name}, which is not there")
        elif names.count(name) > rust.count(name):
            fault(f"{source}: {name} is in two rows")
    if sorted(names) == sorted(rust) and names != rust:
        first = next(a for a, b in zip(names, rust) if a != b)
        fault(f"{source}: {first} does not stand in the Rust's order")


def check():
    """Compares the tables with the Rust and with the repository, and says how many functions there are."""
    whole = alone = left_out = 0
    table = read(TABLE)
    for source in ["lexer.rs", "parser.rs", "syntax.rs"]:
        path = f"{SOURCES}/{source}"
        if not os.path.isfile(path):
            sys.exit(f"index: there is no {path}; MASM_CST_SRC names the folder of the Rust sources")
        names = []
        for cells in rows(section(table, f"## {source}")):
            here = quoted(cells[0])
            names += here
            count = sum(1 for name in here if name.rpartition("::")[2][0].islower())  # types are not counted
            if len(cells) != 4:
                fault(f"{here[0]}: the row has {len(cells)} cells and not 4")
            elif re.match(r"left out: \S", cells[1]) and not cells[2] and not cells[3]:
                left_out += count
            else:
                definition = named(here[0], cells[1], ".antt")
                code = named(here[0], cells[2], ".rt")
                if not definition or not code:
                    fault(f"{here[0]}: the row has no definition or no code, and is not left out")
                if proved(here[0], cells[3], code):
                    whole += count
                else:
                    alone += count
        same_order(source, functions(path), names)
    return (
        f"{whole + alone + left_out} functions: {whole} with definition, code and proof, "
        f"{alone} with definition and code, {left_out} left out"
    )
