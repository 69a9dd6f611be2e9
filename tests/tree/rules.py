"""The rules of docs/TREE.md over many sources: under which node each stands, what it holds and in which order, which can be empty,
and where diagnostics stand.

The sources are an empty one, the paper's examples, those of docs/MESSAGES.md, the example scripts, and scripts made of WORDS at random from a seed.
"""
import glob
import itertools
import random
import re

import paper
from paper import NAMES

RANDOM = 1500
WORDS = ["begin", "end", "proc", "a", "proc a", "if", "if.true", "else", "while", "while.b", "do", "repeat.2", "pub", "pub(package)", "(",
         ")", "[", "]", "{", "}", "@", "@x", "@y(1)", "const X = 1", "const", "=", "type T = felt", "enum", ":", "adv_map A(1) = [2]",
         "adv_map", "namespace a::b", "namespace", "mod m", "mod", "#! d\n", "# c\n", "\n", "\n", "add", "push.1", "->", "$", "$exec", "1",
         "\"q\"", "\"a b\"", ".", "::", ",", "(x) -> felt\n", "(x) -> (y)"]
TRIVIA = {"Whitespace", "Newline", "Comment"}
EMPTY = {"Block", "Expr", "Path", "Error", "SourceFile"}

NAME = r"(Ident:\S+|SpecialIdent|QuotedIdent)"
SUFFIXES = r"( Dot( (LBracket.*|Ident:\S+|SpecialIdent|QuotedIdent|QuotedString|Number))?)*"
# What a node holds, its blanks and comments left out: nodes by their names, tokens by their kinds, an Ident with its text.
HOLDS = {
    "Doc": r"DocComment",
    "Namespace": r"Ident:namespace Path",
    "Submodule": rf"(Visibility )?(Ident:mod )?({NAME} )?",
    "Constant": rf"(Visibility )?(Ident:const )?({NAME} )?(Equal )?Expr",
    "TypeDecl": rf"(Visibility )?(Ident:(type|enum) ({NAME} )?(TypeBody )?)?",
    "AdviceMap": rf"Ident:adv_map ({NAME} )?(LParen .*)?(Equal )?Expr",
    "BeginBlock": r"Ident:begin Block( Ident:end)?",
    "Procedure": rf"(Attribute )*(Visibility )?(Ident:proc ({NAME} )?(Signature )?Block( Ident:end)?)?",
    "Attribute": rf"At ({NAME} )?(LParen.*)?",
    "Visibility": r"Ident:pub( LParen)?( Ident:package)?( RParen)?",
    "Signature": r"LParen.*",
    "IfOp": rf"Ident:if{SUFFIXES} Block( Ident:else Block)?( Ident:end)?",
    "WhileOp": rf"Ident:while{SUFFIXES} Block( Ident:end)?",
    "RepeatOp": rf"Ident:repeat{SUFFIXES} Block( Ident:end)?",
    "DoWhileOp": r"Ident:do Block( Ident:while Block( Ident:end)?)?",
    "Path": rf"(ColonColon )?({NAME} (ColonColon {NAME} )*(ColonColon )?)?",
    "TypeBody": r"(Equal|Colon)\b.*",
    "SourceFile": r"((Doc|Namespace|Submodule|Constant|TypeDecl|AdviceMap|BeginBlock|Procedure|Error) )*",
    "Block": r"((Instruction|IfOp|WhileOp|DoWhileOp|RepeatOp|Error) )*",
}


class Node:
    def __init__(self, name, parent):
        self.name, self.parent, self.children = name, parent, []

    def symbols(self):
        """Its children, nodes by their names."""
        return [child.name if isinstance(child, Node) else child for child in self.children]


def nodes(source, printed):
    """The nodes of a tree as printed. A child is a node, or a token's kind, with its text behind it where that is Ident."""
    open_nodes = []
    for line in printed:
        sign, *words = line.split(" ")
        if sign == "+":
            node = Node(NAMES[int(words[0])], open_nodes[-1] if open_nodes else None)
            if open_nodes:
                open_nodes[-1].children.append(node)
            open_nodes.append(node)
        elif sign == "-":
            yield open_nodes.pop()
        elif sign == "=":
            kind, start, end = map(int, words)
            text = f":{source[start:end].decode()}" if NAMES[kind] == "Ident" else ""
            open_nodes[-1].children.append(NAMES[kind] + text)


def sources(text):
    yield b""
    for shown, _ in paper.EXAMPLE.findall(text):
        yield paper.source_of(shown)
    with open("docs/MESSAGES.md", encoding="utf-8") as messages:
        for pieces in re.findall(r"^\| \d+ \| .* \| ([^|]*) \|$", messages.read(), re.MULTILINE):
            found = re.findall(r"(?:(\d+) × )?`([^`]*)`", pieces)
            yield "".join(piece.replace("\\n", "\n") * int(count or 1) for count, piece in found).encode()
    for path in sorted(glob.glob("examples/*.masm")):
        with open(path, "rb") as script:
            yield script.read(2048)
    chance = random.Random(1)
    for _ in range(RANDOM):
        yield " ".join(chance.choice(WORDS) for _ in range(chance.randint(1, 40))).encode()


def block_faults(node):
    """Where a Block starts and ends in its owner."""
    symbols = node.symbols()
    for at, child in enumerate(node.children):
        if not isinstance(child, Node) or child.name != "Block":
            continue
        before = re.search(r"((?:\b(?:Whitespace|Newline|Comment) )*)$", "".join(f"{symbol} " for symbol in symbols[:at]))[1]
        first = child.symbols()[:1]
        loose = node.name == "Procedure" and "Signature" not in symbols
        if first == ["Whitespace"] or loose and set(first) & TRIVIA:
            yield f"a Block in {node.name} starts with {first[0]}"
        if not loose and not re.fullmatch(r"(Whitespace )?(Comment )?", before):
            yield f"before a Block in {node.name} stands {before}"
        if set(symbols[at + 1:at + 2]) & TRIVIA:
            yield f"behind a Block in {node.name} stands {symbols[at + 1]}"


def node_faults(node):
    holds = "".join(f"{symbol} " for symbol in node.symbols() if symbol not in TRIVIA)
    if not re.fullmatch(rf"(?:{HOLDS.get(node.name, '.*')}) ?", holds):
        yield f"{node.name} holds {holds}"
    if not node.children and node.name not in EMPTY:
        yield f"{node.name} is empty"
    yield from block_faults(node)


def place(source, start):
    """The line and the column of an offset; Python's lines end at CR LF, CR and LF, each behind its last byte."""
    lines = source.splitlines(keepends=True)
    ends = [end for end in itertools.accumulate(map(len, lines)) if end <= start and source[end - 1 : end] in (b"\r", b"\n")]
    return 1 + len(ends), 1 + start - max(ends, default=0)


def diagnostic_faults(source, printed):
    """Starts never fall; lines and columns are those of the starts."""
    last = 0
    for line in printed:
        if not line.startswith("! "):
            continue
        row, column, start = map(int, line.split(" ")[1:4])
        if start < last:
            yield f"a diagnostic at {start} behind one at {last}"
        if (row, column) != place(source, start):
            yield f"line {row} and column {column} for {start}"
        last = start


def told(text):
    """The pairs of a node and what it stands under, by the paper's table."""
    table = text.split("## Under which node stands what")[1].split("\n## ")[0]
    rows = re.findall(r"^\| ([A-Z][\w, ]*) \| ([\w, ]*?) ?\| ", table, re.MULTILINE)
    return {(name, under) for names, unders in rows for name in names.split(", ") for under in unders.split(", ") if under}


def check(text):
    """The faults, and what was looked at."""
    faults, pairs, empty, count = set(), set(), set(), 0
    for source in sources(text):
        printed = paper.read(paper.PROGRAM, source)
        count += printed is not None
        faults.update(f"{fault} in {source!r}" for fault in diagnostic_faults(source, printed or []))
        for node in nodes(source, printed or []):
            faults.update(f"{fault} in {source!r}" for fault in node_faults(node))
            if node.parent:
                pairs.add((node.name, node.parent.name))
            if not node.children:
                empty.add(node.name)
    faults.update(f"the table and the trees differ on {pair[0]} under {pair[1]}" for pair in pairs ^ told(text))
    faults.update(f"no empty {name} was seen" for name in EMPTY - empty)
    return sorted(faults), f"{len(pairs)} pairs of nodes over {count} trees"
