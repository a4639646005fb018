#!/usr/bin/env python3
"""Checks a store file of version 2 by itself: `check_store.py FILE`. Its status is 1, with a line that says why, where it isn't one."""
import hashlib
import re
import sys

text = open(sys.argv[1], "rb").read()


def take(pattern):
    global text
    line, end, text = text.partition(b"\n")
    found = re.fullmatch(pattern, line)
    return found.groups() if found and end else sys.exit(f"no line {pattern.decode()}: {line!r}")


take(rb"gxstore 2")
names, last = set(), b""
for _ in range(int(take(rb"objects (0|[1-9]\d*)")[0])):
    kind, size, digits = take(rb"(blob|tree|commit|tag) (0|[1-9]\d*) ([0-9a-f]{40})")
    body, end, text = text[: int(size)], text[int(size) :][:1], text[int(size) + 1 :]
    end == b"\n" or sys.exit(f"no LF behind the body of {digits.decode()}")
    digits == hashlib.sha1(b"%b %b\0%b" % (kind, size, body)).hexdigest().encode() or sys.exit(f"not this object's name: {digits.decode()}")
    digits not in names and not names.add(digits) or sys.exit(f"there twice: {digits.decode()}")
for _ in range(int(take(rb"refs (0|[1-9]\d*)")[0])):
    digits, name = take(rb"([0-9a-f]{40}) (.+)")
    digits in names and last < name or sys.exit(f"out of order, or its object isn't there: {name!r}")
    last = name
take(rb"end")
text == b"" or sys.exit("bytes behind the end")
