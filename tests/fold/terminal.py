#!/usr/bin/env python3
"""Runs `fold` on a script with a long line, in terminals of chosen widths: its rows are as wide as the
terminal, or it refuses. Letters are shown where the locale is UTF-8 alone."""
import fcntl
import os
import pty
import struct
import subprocess
import sys
import termios


def stop(reason):
    sys.exit(f"tests/fold: {reason}")


def in_terminal(columns, words, locale="C.UTF-8"):
    """The exit status and what stands in the terminal."""
    leader, follower = pty.openpty()
    fcntl.ioctl(follower, termios.TIOCSWINSZ, struct.pack("HHHH", 24, columns, 0, 0))
    env = {**os.environ, "LC_ALL": locale}
    done = subprocess.Popen(words, stdin=subprocess.DEVNULL, stdout=follower, stderr=follower, env=env)
    os.close(follower)
    text = b""
    try:
        while piece := os.read(leader, 65536):
            text += piece
    except OSError:
        pass
    os.close(leader)
    return done.wait(), text.decode().replace("\r\n", "\n")


def widest(text):
    return max(len(line) for line in text.splitlines())


def check(name, found, expected):
    if found != expected:
        stop(f"{name}: {found}, not {expected}")


def main():
    fold, script, letters = sys.argv[1:]
    long = "long name " * 20
    for columns in (40, 61, 80, 132):
        status, text = in_terminal(columns, [fold, script, "--open"])
        check(f"{columns} columns", (status, widest(text)), (0, columns))
        status, text = in_terminal(columns, [fold, long])
        check(f"a complaint in {columns} columns", (status, widest(text) <= columns), (3, True))
    status, text = in_terminal(39, [fold, script])
    check("39 columns", (status, text.replace("\n    : ", "")),
          (3, "fold: standard output: the terminal has less than 40 columns\n"))
    status, text = in_terminal(39, [fold, script, "--width", "50"])
    check("a given width", (status, widest(text)), (0, 50))
    for columns, expected in (("50", 50), ("39", 80), ("5000", 80), ("-1", 80), ("x", 80)):
        env = {**os.environ, "COLUMNS": columns}
        text = subprocess.run([fold, script, "--open"], env=env, capture_output=True, check=True).stdout
        check(f"COLUMNS={columns}", widest(text.decode()), expected)
    for locale, ascii_only in (("C.UTF-8", False), ("C", True)):
        _, text = in_terminal(80, [fold, letters], locale)
        check(f"letters in locale {locale}", ("gr\u00f6" not in text, text.isascii()), (ascii_only,) * 2)
        _, text = in_terminal(80, [fold, "gr\u00f6"], locale)
        check(f"a complaint in locale {locale}", text.isascii(), ascii_only)
    print("terminals: widths, COLUMNS, --width and letters")


main()
