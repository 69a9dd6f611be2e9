#!/usr/bin/env python3
"""Holds masm_lines to a judge that nobody here wrote: Python's bytes.splitlines ends lines at CR LF, CR
and LF, and at nothing else. A line end is completed where a line stops that ends in one."""
import glob
import itertools
import os
import random
import subprocess
import sys
from array import array

# Every string of these up to a length: quotes, a backslash, line ends, and the two bytes of an e acute.
BYTES = [bytes([byte]) for byte in b'a\r\n"\\\xc3\xa9']
LONGEST = 6
PIECES = BYTES + [b"\r\n", b"\r\r\n", b"\n\r", b'"a\\\r\n', b"# b", b"\xc3\xa9", b"\0", b"\x0b", b"\x0c",
                  b"\x1c\x1d\x1e", b"\x85", "\u2028".encode(), "\u2029".encode(), b"\t ", b"\xff"]
RANDOM, LONGEST_RANDOM = 4000, 200
TOP = 2**32 - 1

# The table of M-102: source, offset, line, column.
TABLE = [(b"a\rb", 2, 2, 1), (b"a\r\nb", 2, 1, 3), (b"a\r\nb", 3, 2, 1), (b"\r\r\n", 2, 2, 2),
         (b"\n\r", 2, 3, 1), (b'"a\\\rb"', 4, 2, 1), (b"begin\r\n", 6, 1, 7), (b"a\r", 2, 2, 1),
         (b"\xc3\xa9\r\xc3\xa9$", 5, 2, 3)]


def stop(reason):
    sys.exit(f"tests/lines: {reason}")


def judged(source):
    """The lines and the columns of every offset up to the length, by bytes.splitlines."""
    lines, columns, line, column = [], [], 1, 1
    for text in source.splitlines(keepends=True):
        lines += [line] * len(text)
        columns += range(1, len(text) + 1)
        line, column = (line + 1, 1) if text[-1:] in (b"\r", b"\n") else (line, len(text) + 1)
    return lines + [line], columns + [column]


def all_offsets(source):
    return [*range(len(source) + 1), len(source) + 1, TOP]


def short_questions():
    for length in range(LONGEST + 1):
        for letters in itertools.product(BYTES, repeat=length):
            source = b"".join(letters)
            yield source, all_offsets(source)


def random_questions():
    """Their offsets rise, fall, or come as they like."""
    chance = random.Random(1)
    for number in range(RANDOM):
        source = b"".join(chance.choices(PIECES, k=chance.randrange(1, 80)))[:LONGEST_RANDOM]
        offsets = all_offsets(source)
        if number % 3 == 1:
            offsets.reverse()
        elif number % 3 == 2:
            chance.shuffle(offsets)
        yield source, offsets


def file_questions(files):
    """The files as they stand, and with CR, CR LF or CR CR LF for LF."""
    for name in files:
        with open(name, "rb") as file:
            text = file.read()
        for end in (b"\n", b"\r", b"\r\n", b"\r\r\n"):
            source = text.replace(b"\n", end)
            yield source, all_offsets(source)


def check(driver, questions):
    """Asks the driver all; the numbers of sources and offsets, or the first that it answers wrongly."""
    asked = bytearray()
    for source, offsets in questions:
        asked += array("I", [len(source), len(offsets)]).tobytes() + source + array("I", offsets).tobytes()
    answers = subprocess.run([driver], input=bytes(asked), capture_output=True, check=True).stdout
    at = total = 0
    for source, offsets in questions:
        lines, columns = judged(source)
        places = [min(offset, len(source)) for offset in offsets]
        right = array("I", [len(offsets), *map(lines.__getitem__, places), *map(columns.__getitem__, places)])
        found = array("I", answers[at:at + 4 * len(right)])
        if found != right:
            return f"{source!r}, offsets {offsets[:20]}: {found.tolist()[:60]}, not {right.tolist()[:60]}"
        at += 4 * len(right)
        total += len(offsets)
    if at != len(answers):
        return "more answers than questions"
    return len(questions), total


def check_table():
    for source, offset, line, column in TABLE:
        lines, columns = judged(source)
        if (lines[offset], columns[offset]) != (line, column):
            stop(f"the judge says {lines[offset]} {columns[offset]} of {source!r} at {offset}")


def run(words):
    done = subprocess.run(words, capture_output=True, check=False)
    return done.returncode, done.stdout.decode(), done.stderr.decode()


def check_example(example, files, out):
    """examples/lines on files: every offset, chosen ones, and what it refuses."""
    made = os.path.join(out, "made.masm")
    sources = [source for source, *_ in TABLE] + [source for source, _ in file_questions(files)] + [b""]
    for source in sources:
        with open(made, "wb") as file:
            file.write(source)
        lines, columns = judged(source)
        rows = [f"{at} {lines[at]} {columns[at]}\n" for at in range(len(source) + 1)]
        if run([example, made]) != (0, "".join(rows), ""):
            stop(f"examples/lines on {source[:200]!r} prints something else")
        chosen = f"{TOP} {lines[-1]} {columns[-1]}\n" + rows[-1] + rows[0]
        if run([example, made, str(TOP), str(len(source)), "0"]) != (0, chosen, ""):
            stop(f"examples/lines on chosen offsets of {source[:200]!r} prints something else")
    for source, status in ((1048576 * b"\r", 0), (1048577 * b"\r", 2)):
        with open(made, "wb") as file:
            file.write(source)
        for words in ([], ["7"]):
            found, rows, said = run([example, made, *words])
            if found != status or (rows == "") != (status == 2) or (said == "") != (status == 0):
                stop(f"examples/lines on {len(source)} bytes ends with {found}")
    for words in ([], ["missing.masm"], [out], [made, "x"], [made, "-1"], [made, ""], [made, "4294967296"],
                  [made, "99999999999999999999"], [made, "0", "1a"]):
        found, rows, said = run([example, *words])
        if (found, rows) != (3, "") or said == "":
            stop(f"examples/lines {words} ends with {found}")
    with open("/dev/full", "w", encoding="ascii") as full:
        found = subprocess.run([example, files[0]], stdout=full, stderr=full, check=False).returncode
    if found != 3:
        stop(f"examples/lines ends with {found} where nothing can be written")
    return len(sources)


def main():
    driver, faulty, example, out, *faults = sys.argv[1:]
    files = sorted(glob.glob("examples/*.masm") + glob.glob("tests/fold/scripts/*.masm"))
    check_table()
    questions = [*short_questions(), *random_questions(), *file_questions(files)]
    found = check(driver, questions)
    if isinstance(found, str):
        stop(found)
    print(f"masm_lines: {found[0]} sources, {found[1]} offsets, all as bytes.splitlines has them")
    print(f"examples/lines: {check_example(example, files, out)} files")
    # Most sources are not needed to find a fault.
    fewer = [question for question in questions if len(question[0]) < 4] + [*random_questions()][:200]
    for fault in faults:
        os.environ["MASM_FAULT"] = fault
        if isinstance(check(faulty, fewer), str) == (fault == "none"):
            stop(f"the fault {fault} is not found" if fault != "none" else "the stand-in has a fault")
    print(f"faults: {len(faults) - 1}, all found")


main()
