#!/usr/bin/env python3
"""Writes letters.inc: the characters outside ASCII that `fold` shows as themselves, as ranges.

Shown are letters, numbers, punctuation and symbols. Escaped is everything that can't be seen or that
moves what stands beside it: controls, format characters, private use and unassigned code points,
spaces, marks, right-to-left letters and numbers, and the letters and symbols that are blank or take no
column (Hangul fillers, conjoining vowels and finals, the blank braille pattern and note head)."""
import sys
import unicodedata

FILLERS = {0x115F, 0x1160, 0x3164, 0xFFA0, 0x2800, 0x1D159}
NO_COLUMN = [(0x1160, 0x11FF), (0xD7B0, 0xD7FF)]
RIGHT_TO_LEFT = {"R", "AL", "AN", "LRE", "RLE", "LRO", "RLO", "PDF", "LRI", "RLI", "FSI", "PDI"}
COLUMNS = {"W": "WIDE", "F": "WIDE", "A": "EITHER"}


def is_shown(code):
    letter = chr(code)
    if unicodedata.category(letter)[0] not in "LNPS":
        return False
    if unicodedata.bidirectional(letter) in RIGHT_TO_LEFT:
        return False
    return code not in FILLERS and not any(low <= code <= high for low, high in NO_COLUMN)


def columns(code):
    """Newer versions of Unicode make more symbols wide, and terminals may know them."""
    letter = chr(code)
    usual = "EITHER" if unicodedata.category(letter)[0] == "S" else "NARROW"
    return COLUMNS.get(unicodedata.east_asian_width(letter), usual)


def ranges():
    first = last = width = None
    for code in range(0x80, 0x110000):
        found = columns(code) if is_shown(code) else None
        if found != width:
            if width is not None:
                yield first, last, width
            first, width = code, found
        last = code
    if width is not None:
        yield first, last, width


def table():
    yield f"/* Unicode {unicodedata.unidata_version}, written by letters.py */\n"
    for first, last, width in ranges():
        yield f"{{ 0x{first:05X}, 0x{last:05X}, {width} }},\n"


if __name__ == "__main__":
    sys.stdout.writelines(table())
