#!/usr/bin/env python3
"""Checks examples/fold/letters.inc. Where this machine's Unicode data is of the table's version, the
table is what examples/fold/letters.py writes. Else its ranges rise, and no character in them is one
that this machine's data knows and that is to be escaped."""
import re
import sys
import unicodedata
from pathlib import Path

FOLDER = Path(__file__).resolve().parents[2] / "examples" / "fold"
sys.path.insert(0, str(FOLDER))
sys.dont_write_bytecode = True
import letters  # noqa: E402


def stop(reason):
    sys.exit(f"examples/fold/letters.inc: {reason}")


def check_ranges(text):
    """Without the right version: what can still be said."""
    before = 0x7F
    for line in text.splitlines()[1:]:
        found = re.fullmatch(r"\{ 0x([0-9A-F]{5,6}), 0x([0-9A-F]{5,6}), (NARROW|EITHER|WIDE) \},", line)
        if not found:
            stop(f"not a range: {line}")
        first, last = int(found[1], 16), int(found[2], 16)
        if not before < first <= last <= 0x10FFFF:
            stop(f"does not rise: {line}")
        for code in range(first, last + 1):
            if unicodedata.category(chr(code)) != "Cn" and not letters.is_shown(code):
                stop(f"U+{code:04X} is to be escaped")
        before = last


def main():
    text = (FOLDER / "letters.inc").read_text()
    version = re.match(r"/\* Unicode (\S+), written by letters.py \*/\n", text)
    if not version:
        stop("has no version in its head")
    check_ranges(text)
    if version[1] != unicodedata.unidata_version:
        print(f"letters: Unicode {version[1]}, this machine has {unicodedata.unidata_version}: ranges checked alone")
    elif text != "".join(letters.table()):
        stop("is not what letters.py writes")
    else:
        print(f"letters: Unicode {version[1]}, {len(text.splitlines()) - 1} ranges")


main()
