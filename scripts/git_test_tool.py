#!/usr/bin/env python3
"""What git's test scripts ask of its helper `test-tool`, as far as they need it to leave their repositories."""

import os
import subprocess
import sys


def genrandom(seed: str, size: str) -> None:
    """Bytes that follow from a seed."""
    number = 0
    for byte in seed.encode():
        number = (number * 11 + byte) % 2**64
    for _ in range(int(size)):
        number = (number * 1103515245 + 12345) % 2**64
        sys.stdout.buffer.write(bytes([(number >> 16) & 0xFF]))


def file_size(*paths: str) -> None:
    for path in paths:
        print(os.path.getsize(path))


def resolve_ref(name: str, _flags: str) -> None:
    done = subprocess.run(["git", "rev-parse", "-q", "--verify", name], capture_output=True)
    print(done.stdout.decode().strip() or "0" * 40, name, "0x0")


def is64bit() -> None:
    """Times have 64 bits: status 0."""


COMMANDS = {
    ("genrandom",): genrandom,
    ("path-utils", "file-size"): file_size,
    ("ref-store", "main", "resolve-ref"): resolve_ref,
    ("date", "is64bit"): is64bit,
    ("date", "time_t-is64bit"): is64bit,
}

for words, command in COMMANDS.items():
    if tuple(sys.argv[1 : 1 + len(words)]) == words:
        command(*sys.argv[1 + len(words) :])
        break
else:
    sys.exit(f"test-tool: {' '.join(sys.argv[1:3])} isn't there")
