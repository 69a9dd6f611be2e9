"""What the files of the specs state, and what a statement is about. It reads layout and brackets, not the language."""
import re

from common import read

SIGNATURE = re.compile(r"\s*(?:(abbrev|unfoldable) )?(pub )?([^\s(){}]+) :(?: (.*)|$)")
TYPE = re.compile(r"\s*(pub )?(record|data) (\S+) ?(.*) : [^:]*Type 0 where")
NEITHER = re.compile(r"\s*(--|use |pub use |pub mod |(pub )?ruleset )")
OPERATORS = {">>=": "◌>>=◌", ">>": "◌>>◌"}


def modules(path):
    """The files that a file names as its modules, in its order."""
    return re.findall(r"^pub mod (\w+)", read(path), re.MULTILINE)


class Signature:
    """A law, a definition (abbrev, unfoldable) or a type (record, data: `type` has its parameters)."""

    def __init__(self, kind, public, name, type):
        self.kind, self.public, self.name, self.type = kind or "law", bool(public), name, type


def signatures(path):
    """What a file states, in its modules too, but nothing that stands in the `where` of a clause."""
    lines, found = read(path).splitlines(), []
    while lines:
        line = lines.pop(0)
        depth = len(line) - len(line.lstrip())
        if not line.strip() or NEITHER.match(line):
            continue
        block = []
        while lines and (not lines[0].strip() or len(lines[0]) - len(lines[0].lstrip()) > depth):
            block.append(lines.pop(0))
        whole = " ".join([line] + [more.strip() for more in block])
        if type := TYPE.match(whole):
            found.append(Signature(type[2], type[1], type[3], type[4]))
        elif line.lstrip().startswith("module "):
            while not line.endswith("where"):
                line = block.pop(0).rstrip()
            lines = block + lines
        elif SIGNATURE.match(line):
            signature = SIGNATURE.match(whole)
            found.append(Signature(signature[1], signature[2], signature[3], (signature[4] or "").strip()))
    return found


def tree(text):
    """The words of a type, brackets as lists."""
    here, around = [], []
    for word in re.findall(r"[(){}]|[^\s(){}]+", text):
        if word in "({":
            around.append(here)
            here = []
        elif word in ")}":
            around[-1].append(here)
            here = around.pop()
        else:
            here.append(word)
    return here


def split(words, *at):
    """Divides a list of words at the given ones."""
    pieces = [[]]
    for word in words:
        if word in at:
            pieces.append([])
        else:
            pieces[-1].append(word)
    return pieces


def names(words):
    """The names in an expression, without the modules before them and without fields."""
    for word in words:
        if isinstance(word, list):
            yield from names(word)
        elif not word.startswith("."):
            yield OPERATORS.get(word, word.rpartition(".")[2])


def functions_of(words, defined, ways):
    """The functions that an expression is made of; where it names none, the way in which it is put together."""
    if words and words[0] == "λ":
        words = words[2:]
    if not words:
        return []
    if ">>=" in words or ">>" in words:
        way, pieces = OPERATORS[">>=" if ">>=" in words else ">>"], split(words, *OPERATORS)
    elif words[0] == "when":
        way, pieces = "when◌then◌else◌", split(words[1:], "then", "else")[1:]
    elif isinstance(words[0], list):
        return functions_of(words[0], defined, ways)
    elif words[0] in ("take", "err", "pure", "peek") or words[0] not in ways:
        return [words[0]] if words[0] in defined else []
    else:
        way, pieces = words[0], [[word] for word in words[2 if words[0] == "pick" else 1 :]]
    called = [name for piece in pieces for name in functions_of(piece, defined, ways)]
    return [name for name in called if name not in ways] or [name for name in called if name in ("take", "err")] or [way]
