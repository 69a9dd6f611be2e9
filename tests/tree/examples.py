"""The examples of docs/TREE.md against what the programs print of their sources."""
import json
import os
import re
import textwrap

import paper
from paper import NAMES

SECTION = re.compile(r"^## (\d+) (\w+)$", re.MULTILINE)
# Node kinds that no accepted source has: ExternPackage, Import and its parts.
REFUSED = {5, 7, 8, 9}
# The five sites of Error nodes by their messages: top level, block, doc comment, depth, recovery.
SITES = ["unexpected top-level token", "unexpected token in block", "doc comments are only allowed", "nesting depth exceeded", "before "]


def show_token(source, kind, start, end):
    return f"{NAMES[kind]} {json.dumps(source[start:end].decode(), ensure_ascii=False)}"


def render(source, printed):
    """The tree that a program printed, as the paper shows it: nodes by lines, neighbouring tokens in one line, events, diagnostics."""
    tree, events, diagnostics, depth, run = [], [], [], 0, False
    for line in printed:
        sign, *words = line.split(" ")
        if sign == "!":
            diagnostics.append(line)
        elif sign == "=":
            kind, start, end = map(int, words)
            token = show_token(source, kind, start, end)
            tree.append(f"{tree.pop()}, {token}" if run else "  " * depth + token)
            events.append(60 if kind == 1 else kind)
        elif sign == "+":
            tree.append("  " * depth + NAMES[int(words[0])])
            events.append(int(words[0]))
            depth += 1
        else:
            events.append(0)
            depth -= 1
        run = sign == "="
    return "\n".join(tree + ["events: " + " ".join(map(str, events))] + diagnostics)


def read_by(program, shown):
    source = paper.source_of(shown)
    printed = paper.read(program, source)
    return "a refusal" if printed is None else render(source, printed)


def agrees(shown, found):
    """Whether the paper shows what was found, but for what it leaves out."""
    if "\n...\n" not in shown:
        return shown == found
    tree, _, events = shown.partition("\nevents: ")
    found_tree, _, found_events = found.partition("\nevents: ")
    head, tail = tree.split("\n...\n")
    last = found_tree.split("\n")[-len(tail.split("\n")):]
    pieces = map(re.escape, events.split(" ... "))
    return (found_tree.startswith(head + "\n") and textwrap.dedent("\n".join(last)) == tail
            and re.fullmatch(" .* ".join(pieces), found_events) is not None)


def cut(text):
    """A text for a report: no more lines than a screen has, nor longer ones."""
    return "\n".join(line[:140] for line in text.split("\n")[:40])


def written(text):
    """The paper with the trees that PROGRAM prints, but for those that leave something out."""
    def anew(found):
        source, shown = found[1], found[2]
        tree = shown if "\n...\n" in shown else read_by(paper.PROGRAM, source)
        return f"```masm\n{source}\n```\n\n```tree\n{tree}\n```"
    return paper.EXAMPLE.sub(anew, text)


def section_faults(text):
    """Each node kind that can occur has its section, in the order of the kinds, and an example with such a node in it."""
    parts = SECTION.split(text)[1:]
    sections = list(zip(map(int, parts[0::3]), parts[1::3], parts[2::3]))
    kinds = [(kind, NAMES[kind]) for kind in range(1, 27) if kind not in REFUSED]
    if [(kind, name) for kind, name, _ in sections] != kinds:
        return ["its sections are not the node kinds in their order"]
    shown = {name: "\n".join(tree for _, tree in paper.EXAMPLE.findall(part)) for _, name, part in sections}
    faults = [f"no example of {name} in its section" for name in shown if not re.search(rf"^ *{name}$", shown[name], re.MULTILINE)]
    return faults + [f"no Error node of the site `{site}`" for site in SITES if site not in shown["Error"]]


def check(text):
    """The faults, and what was compared."""
    examples = paper.EXAMPLE.findall(text)
    faults = section_faults(text)
    if not len(examples) == text.count("```masm\n") == text.count("```tree\n"):
        faults.append("a source without its tree, or a tree without its source")
    programs = [paper.PROGRAM] + [paper.REFERENCE] * os.path.exists(paper.REFERENCE)
    for source, shown in examples:
        for program in programs:
            found = read_by(program, source)
            if not agrees(shown, found):
                faults.append(f"{program} reads\n{source}\nas\n{cut(found)}\nand not as\n{cut(shown)}")
    return faults, f"{len(examples)} examples, as read by {' and '.join(programs)}"
