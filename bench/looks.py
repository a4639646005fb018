#!/usr/bin/env python3
"""Measures questions to a growing store beside git.

  looks.py table GX STORE REPOSITORY        a line for each question: processor time of both, clock of both without cached files,
                                            and of gx how often and how much it reads, and its memory
  looks.py batch GX STORE                   the first answer of a batch, and 300 ranges in one
  looks.py reads GX STORE OTHER             how often and how much questions read of two stores with the same tip
  looks.py pad STORE BYTES                  writes a store of version 2 with blobs in front, of so many bytes together

The repository is a bare one of the same history. Times are the middle of RUNS runs in turn, 20 if it isn't set.
"""
import hashlib
import os
import re
import statistics
import subprocess
import sys
import tempfile
import time
from random import Random

RUNS = int(os.environ.get("RUNS", "20"))
# what is asked of gx and of git, and whether both print the same
QUESTIONS = [
    ("show REV:path", ["show", "STORE", "REV:PATH"], ["cat-file", "blob", "REV:PATH"], True),
    ("rev-parse", ["rev-parse", "STORE", "REV~3^{tree}"], ["rev-parse", "REV~3^{tree}"], True),
    ("rev-parse of 8 digits", ["rev-parse", "STORE", "DIGITS"], ["rev-parse", "DIGITS"], True),
    ("log -n 10", ["log", "-n", "10", "STORE", "REV"], ["rev-list", "-n", "10", "REV"], True),
    ("ls", ["ls", "STORE", "REV:FOLDER"], ["ls-tree", "REV:FOLDER"], True),
    ("refs", ["refs", "STORE"], ["show-ref"], True),
    ("log of all", ["log", "STORE", "REV"], ["rev-list", "REV"], True),
    ("log of all, no commit-graph", ["log", "STORE", "REV"], ["-c", "core.commitGraph=false", "rev-list", "REV"], True),
    ("log of all, dates", ["log", "--format=dates", "STORE", "REV"], ["log", "--format=%H %at %ct", "REV"], True),
    ("ls -r", ["ls", "-r", "STORE", "REV"], ["ls-tree", "-r", "REV"], True),
]
READ = re.compile(r"^\d+ +(?:read|pread64)\(\d+<([^>]*)>.*\) += (\d+)$", re.M)


def made(words):
    return subprocess.run(words, check=True, capture_output=True).stdout


class Asked:
    """The questions to a store and to a repository of the same history."""

    def __init__(self, gx, store, repository=None):
        self.gx, self.store, self.repository = gx, os.path.realpath(store), repository
        refs = made([gx, "refs", store]).decode().split("\n")[0].split(" ")
        tree = made([gx, "ls", "-r", store, refs[1]]).decode().splitlines()
        path = sorted(line.split("\t")[1] for line in tree)[len(tree) // 2]
        self.known = {"REV": refs[1], "PATH": path, "FOLDER": path.rsplit("/", 2)[0], "DIGITS": refs[0][:8], "STORE": store}

    def words(self, words):
        filled = [re.sub("REV|PATH|FOLDER|DIGITS|STORE", lambda found: self.known[found[0]], word) for word in words]
        return [self.gx, *filled]

    def words_of_git(self, words):
        return ["git", "-C", self.repository, *self.words(words)[1:]]


def run(words):
    """The processor and the clock seconds of a run, whose output is thrown away."""
    with open(os.devnull, "r+b") as nothing:
        files = [(os.POSIX_SPAWN_DUP2, nothing.fileno(), number) for number in (0, 1)]
        start = time.perf_counter()
        child = os.posix_spawnp(words[0], words, os.environ, file_actions=files)
        _, status, used = os.wait4(child, 0)
        assert status == 0, words
        return used.ru_utime + used.ru_stime, time.perf_counter() - start


def files_below(place):
    return [place] if os.path.isfile(place) else [os.path.join(at, name) for at, _, names in os.walk(place) for name in names]


def drop_cached(*places):
    """Has the system forget what it holds of files."""
    for path in [path for place in places for path in files_below(place)]:
        file = os.open(path, os.O_RDONLY)
        os.fsync(file)
        os.posix_fadvise(file, 0, 0, os.POSIX_FADV_DONTNEED)
        os.close(file)


def in_turn(commands, runs, before=lambda: None):
    """What so many runs of each command took, in turn: the middle of their seconds."""
    taken = [[] for _ in commands]
    for _ in range(runs):
        for command, times in zip(commands, taken):
            before()
            times.append(run(command))
    return [tuple(map(statistics.median, zip(*times))) for times in taken]


def reads(words, store, stdin=b""):
    """How often a command reads a file, and how many bytes."""
    with tempfile.NamedTemporaryFile("r") as trace:
        front = ["strace", "-f", "-y", "-qq", "-o", trace.name, "-e", "trace=read,pread64"]
        subprocess.run([*front, *words], check=True, input=stdin, stdout=subprocess.DEVNULL)
        sizes = [int(size) for path, size in READ.findall(trace.read()) if path == store]
    return len(sizes), sum(sizes)


def memory(words):
    """How many megabytes a command takes at most."""
    with tempfile.NamedTemporaryFile("r") as told:
        front = ["/usr/bin/time", "-f", "%M", "-o", told.name]
        subprocess.run([*front, *words], check=True, stdout=subprocess.DEVNULL)
        return int(told.read()) / 1024


def table(gx, store, repository):
    asked = Asked(gx, store, repository)
    print("| Question | `gx`, `git`, processor | cold, clock | reads | bytes | memory, MB |\n|---|---|---|---|---|---|")
    for name, ours, theirs, is_same in QUESTIONS:
        commands = [asked.words(ours), asked.words_of_git(theirs)]
        assert not is_same or made(commands[0]) == made(commands[1]), name
        warm = in_turn(commands, RUNS)
        cold = in_turn(commands, max(1, RUNS // 4), lambda: drop_cached(store, repository))
        count, size = reads(commands[0], asked.store)
        times = ", ".join(f"{1000 * times[0]:.1f}" for times in warm) + " ms"
        clocks = ", ".join(f"{1000 * times[1]:.0f}" for times in cold) + " ms"
        print(f"| {name} | {times} | {clocks} | {count:,} | {size:,} | {memory(commands[0]):.1f} |", flush=True)


def batch(gx, store):
    asked = Asked(gx, store)
    firsts = []
    for _ in range(RUNS):
        start = time.perf_counter()
        child = subprocess.Popen([gx, "batch", "--command", store], stdin=subprocess.PIPE, stdout=subprocess.PIPE)
        child.stdin.write(b"info %s\n" % asked.known["REV"].encode())
        child.stdin.flush()
        assert child.stdout.readline()
        firsts.append(time.perf_counter() - start)
        child.stdin.close()
        child.wait()
    print(f"first answer of gx batch --command: {1000 * statistics.median(firsts):.1f} ms")
    lines = b"log %s~1..%s\n" % ((asked.known["REV"].encode(),) * 2) * 300
    start, before = time.perf_counter(), os.times()
    subprocess.run([gx, "batch", "--command", store], input=lines, check=True, stdout=subprocess.DEVNULL)
    after = os.times()
    used = after.children_user + after.children_system - before.children_user - before.children_system
    print(f"300 times log of one commit in a batch: {time.perf_counter() - start:.3f} s, {used:.2f} s of processor")


def both_reads(gx, store, other):
    first, second = Asked(gx, store), Asked(gx, other)
    print("| Question | reads | bytes | reads, larger | bytes, larger |\n|---|---|---|---|---|")
    for name, ours, _, _ in QUESTIONS[:6]:
        small, large = (reads(asked.words(ours), asked.store) for asked in (first, second))
        print(f"| {name} | {small[0]:,} | {small[1]:,} | {large[0]:,} | {large[1]:,} |", flush=True)


def pad(store, size):
    with open(store, "rb") as text:
        assert text.readline() == b"gxstore 2\n"
        count, randoms, out = int(text.readline().split()[1]), Random(1), sys.stdout.buffer
        more = int(size) // 8192
        out.write(b"gxstore 2\nobjects %d\n" % (count + more))
        for _ in range(more):
            body = randoms.randbytes(8192)
            name = hashlib.sha1(b"blob 8192\0" + body).hexdigest().encode()
            out.write(b"blob 8192 %s\n%s\n" % (name, body))
        while piece := text.read(1 << 20):
            out.write(piece)


{"table": table, "batch": batch, "reads": both_reads, "pad": pad}[sys.argv[1]](*sys.argv[2:])
