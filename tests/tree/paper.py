"""docs/TREE.md and the programs that read its examples: what the checks share."""
import os
import re
import subprocess

PATH = "docs/TREE.md"
PROGRAM = "crates/tree/out/tree"
REFERENCE = "tests/target/release/tree"
EXAMPLE = re.compile(r"^```masm\n(.*?)\n```\n+```tree\n(.*?)\n```$", re.DOTALL | re.MULTILINE)

os.chdir(os.path.join(os.path.dirname(os.path.abspath(__file__)), "../.."))
with open("include/masm_names.h", encoding="utf-8") as header:
    NAMES = re.findall(r'^        "(\w+)",?$', header.read(), re.MULTILINE)


def text():
    with open(PATH, encoding="utf-8") as file:
        return file.read()


def source_of(shown):
    """The bytes of a source as the paper shows it."""
    return re.sub(r"\{([^{}]*)\}\*(\d+)", lambda found: found[1] * int(found[2]), shown).encode()


def read(program, source):
    """The lines that a program prints of a source, without the first; None where the source is refused."""
    done = subprocess.run([program], input=source, stdout=subprocess.PIPE, check=True)
    first, *lines = done.stdout.decode().split("\n")
    return lines[:-1] if first.startswith("ok ") else None
