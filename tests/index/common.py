"""What the parts of the index share: the faults found, files, and tables as Markdown has them."""
import re

faults = []


def fault(*words):
    faults.append(" ".join(words))


def read(path):
    with open(path, encoding="utf-8") as file:
        return file.read()


def section(text, title):
    """What stands under a heading, up to the next one of its level or above."""
    level = title.split(" ")[0]
    found = re.search(rf"^{re.escape(title)}\n(.*?)(?=^#{{1,{len(level)}}} |\Z)", text, re.MULTILINE | re.DOTALL)
    return found[1] if found else ""


def rows(text):
    """The rows of a text's tables, each a list of cells, without heads and rules."""
    lines = [line for line in text.splitlines() if line.startswith("|")]
    heads = {at - 1 for at, line in enumerate(lines) if line.startswith("|---")}
    return [
        [cell.strip() for cell in line.strip().removeprefix("|").removesuffix("|").split("|")]
        for at, line in enumerate(lines)
        if at not in heads and at - 1 not in heads
    ]


def quoted(cell):
    """The names in a cell, which stand in backquotes."""
    return re.findall(r"`([^`]+)`", cell)
