#!/usr/bin/env python3
"""Measures imports into growing stores beside `git fetch`: what they take, read and write.

  appends.py stream GX STORE                a stream of ten commits on the first ref, each of a few files of about 8 KB
  appends.py import GX STORE STREAM GIT     the import of a stream beside a fetch of the same, and what it writes beside what is new
  appends.py same GX STREAM STORE..         the import of a stream into stores with the same tip, beside the first of them
  appends.py drop GX STORE                  a drop of one ref, and its syncs
  appends.py mirror GX STORE GIT            a mirror with nothing new

GIT is a bare repository that has the refs of STORE. A store is as before behind each run. Times are the middle of RUNS runs in turn, 5 if it isn't set.
"""
import hashlib
import os
import re
import resource
import shutil
import statistics
import subprocess
import sys
import tempfile
import time
from contextlib import contextmanager
from pathlib import Path
from random import Random
from typing import NamedTuple

RUNS = int(os.environ.get("RUNS", "5"))
HEAD = 226
DATA = re.compile(r"^\d+ +(\w+)\(\d+<([^>]*)>.*\) += (\d+)$", re.M)
TIMED = re.compile(r"^(?:\d+ +)?(\d+\.\d+) (\w+)\(.*?(?:<(\d+\.\d+)>)?$", re.M)
READING, WRITING = ("read", "pread64"), ("write", "pwrite64", "writev", "pwritev")
MIRROR = Path(__file__).resolve().parent.parent / "scripts/gx-mirror"


def made(words, **more):
    return subprocess.run(words, check=True, capture_output=True, **more).stdout


def first_ref(gx, store):
    return made([gx, "refs", store]).decode().split("\n")[0].split(" ")[1]


def stream(gx, store):
    """Writes the commits, which put a few lines into files in the place of others."""
    random, ref, out = Random(1), first_ref(gx, store), sys.stdout.buffer
    paths = sorted(line.split("\t")[1] for line in made([gx, "ls", "-r", store, ref]).decode().splitlines())
    texts = {}
    for number in range(10):
        start = b"from %s^0\n" % ref.encode() if number == 0 else b""
        out.write(b"commit %s\ncommitter A <a@x> %d +0000\ndata 7\nChange\n%s" % (ref.encode(), 1900000000 + number, start))
        for path in random.sample(paths, random.randint(1, 5)):
            text = texts.get(path) or made([gx, "show", store, f"{ref}:{path}"])
            at = random.randrange(len(text))
            texts[path] = text[:at] + b"%040x\n" % random.getrandbits(160) + text[at + 41 :]
            out.write(b"M 100644 inline %s\ndata %d\n%s\n" % (path.encode(), len(texts[path]), texts[path]))
        out.write(b"\n")
    out.write(b"done\n")


# ---- runs


@contextmanager
def as_before(store):
    """Has a store be as before behind a run that appends to it, or puts another file there."""
    with open(store, "r+b") as kept:
        head, size = kept.read(HEAD), os.fstat(kept.fileno()).st_size
        try:
            yield
        finally:
            if os.path.samestat(os.stat(store), os.fstat(kept.fileno())):
                os.pwrite(kept.fileno(), head, 0)
                os.ftruncate(kept.fileno(), size)
            else:
                kept.seek(0)
                with open(store + ".kept", "wb") as copy:
                    shutil.copyfileobj(kept, copy, 1 << 24)
                os.rename(store + ".kept", store)
            os.fsync(kept.fileno())


def processor_of_children():
    """Seconds, as fine as the system counts them; os.times counts hundredths."""
    used = resource.getrusage(resource.RUSAGE_CHILDREN)
    return used.ru_utime + used.ru_stime


def run(words, given=os.devnull, **more):
    """The processor and the clock seconds of a run and of all that it runs."""
    before, start = processor_of_children(), time.perf_counter()
    with open(given, "rb") as file:
        subprocess.run(words, check=True, stdin=file, stdout=subprocess.DEVNULL, **more)
    clock = time.perf_counter() - start
    return processor_of_children() - before, clock


def memory(words, given=os.devnull):
    """How many megabytes the largest of the programs takes that a command runs."""
    with tempfile.NamedTemporaryFile("r") as told:
        run(["/usr/bin/time", "-f", "%M", "-o", told.name, *words], given)
        return int(told.read()) / 1024


def bytes_of(words, folder, given=os.devnull):
    """How many bytes a command reads from files in a folder and writes to them, and in how many calls."""
    with tempfile.NamedTemporaryFile("r") as trace:
        calls = ",".join(READING + WRITING)
        run(["strace", "-f", "-y", "-qq", "-s", "0", "-o", trace.name, "-e", f"trace={calls}", *words], given)
        rows = [(call, int(size)) for call, path, size in DATA.findall(trace.read()) if path.startswith(folder)]
    ours = [[size for call, size in rows if call in calls] for calls in (READING, WRITING)]
    return [(len(sizes), sum(sizes)) for sizes in ours]


def middle(runs):
    return tuple(map(statistics.median, zip(*runs)))


class Import:
    """An import of a stream into a store, and what it takes."""

    name = "`gx import`"

    def __init__(self, gx, store, given):
        self.words, self.given, self.store = [gx, "import", "--done", store], given, os.path.realpath(store)

    @contextmanager
    def ready(self):
        with as_before(self.store):
            yield self.words, self.store


class Fetch:
    """A fetch of the same commits between repositories of git."""

    name = "`git fetch`"

    def __init__(self, repository, given):
        self.repository, self.given = repository, os.devnull
        self.folder = tempfile.mkdtemp(dir=os.path.dirname(os.path.realpath(repository)))
        self.source = self.copy("source.git")
        with open(given, "rb") as commits:
            subprocess.run(["git", "-C", self.source, "fast-import", "--quiet", "--done"], check=True, stdin=commits)

    def copy(self, name):
        """A repository that has the objects of the first one, and its refs."""
        path = os.path.join(self.folder, name)
        subprocess.run(["git", "clone", "-q", "--mirror", "--shared", self.repository, path], check=True)
        return path

    @contextmanager
    def ready(self):
        copy = self.copy("copy.git")
        yield ["git", "-C", copy, "fetch", "-q", self.source, "+refs/*:refs/*"], copy
        shutil.rmtree(copy)


def measured(each):
    """What a run takes: seconds of processor and clock, megabytes, and calls and bytes of reads and writes."""
    with each.ready() as (words, _):
        peak = memory(words, each.given)
    with each.ready() as (words, folder):
        read, written = bytes_of(words, folder, each.given)
    return peak, read, written


def seconds(all_of):
    """The middle seconds of runs in turn."""
    taken = [[] for _ in all_of]
    for _ in range(RUNS):
        for each, times in zip(all_of, taken):
            with each.ready() as (words, _):
                times.append(run(words, each.given))
    return [middle(times) for times in taken]


class Row(NamedTuple):
    """What an import takes."""

    processor: float
    peak: float
    reads: int
    read: int
    written: int


def table(rows):
    print("| | processor | clock | memory, MB | reads | bytes read | writes | bytes written |\n|---|---|---|---|---|---|---|---|")
    for (name, each), (processor, clock) in zip(rows, seconds([each for _, each in rows])):
        peak, read, written = measured(each)
        calls = " | ".join(f"{count:,} | {size:,}" for count, size in (read, written))
        print(f"| {name} | {processor:.3f} s | {clock:.3f} s | {peak:.1f} | {calls} |", flush=True)
        yield Row(processor, peak, *read, written[1])


# ---- what is measured


def what_is_new(fetch):
    """How many objects the commits bring, and the bytes of their bodies."""
    before = made(["git", "-C", fetch.repository, "for-each-ref", "--format=^%(objectname)"])
    names = ["git", "-C", fetch.source, "rev-list", "--objects", "--no-object-names", "--all", "--stdin"]
    sizes = ["git", "-C", fetch.source, "cat-file", "--batch-check=%(objectsize)"]
    told = made(sizes, input=made(names, input=before)).split()
    return len(told), sum(map(int, told))


def beside(gx, store, given, repository):
    """An import beside a fetch."""
    fetch = Fetch(repository, given)
    try:
        count, size = what_is_new(fetch)
        refs = len(made([gx, "refs", store]))
        ours = Import(gx, store, given)
        row, _ = table([(each.name, each) for each in (ours, fetch)])
        print(f"new: {count:,} objects, {size:,} bytes; refs: {refs:,} bytes; `gx import` writes {row.written / (size + refs):.2f} times that")
        print("at most: 0.2 s of processor, 60 MB, and twice these bytes")
    finally:
        shutil.rmtree(fetch.folder)


def same(gx, given, *stores):
    """The same import into stores of other sizes."""
    sizes = [f"{os.path.getsize(path):,} bytes" for path in stores]
    first, *others = table([(f"`gx import`, {size}", Import(gx, path, given)) for size, path in zip(sizes, stores)])
    for size, row in zip(sizes[1:], others):
        times = (f"{now / before:.2f} times the {name}" for name, now, before in zip(Row._fields, row, first))
        print(f"{size}, at most 1.2: " + ", ".join(times))


def synced(words):
    """The clock seconds of a run from its first call to its last, and those of its syncs."""
    with tempfile.NamedTemporaryFile("r") as trace:
        kept = "trace=execve,fsync,fdatasync,exit_group"
        run(["strace", "-f", "-ttt", "-T", "-qq", "--seccomp-bpf", "-o", trace.name, "-e", kept, *words])
        rows = TIMED.findall(trace.read())
        whole = float(rows[-1][0]) - float(rows[0][0])
        return whole, sum(float(length) for _, call, length in rows if call in ("fsync", "fdatasync"))


def drop(gx, store):
    """A drop of a ref that another one stands beside."""
    ref = first_ref(gx, store)
    with as_before(store):
        run([gx, "set-ref", store, "refs/heads/dropped", made([gx, "rev-parse", store, ref]).strip()])
        times = []
        for _ in range(RUNS):
            with as_before(store):
                times.append(synced([gx, "drop", store, "refs/heads/dropped"]))
    whole, syncs = middle(times)
    print(f"drop of one ref: {1000 * (whole - syncs):.1f} ms besides its syncs, which take {1000 * syncs:.1f} ms")


def as_written(path):
    """What differs once a file was written."""
    found = os.stat(path)
    return found.st_ino, found.st_size, found.st_mtime_ns


GX_TIMED = """#!/bin/sh
exec /usr/bin/time -a -o {told} -f '%U %S' {gx} "$@"
"""


def mirror(gx, store, repository):
    """A mirror that has nothing new."""
    with tempfile.TemporaryDirectory() as folder:
        timed, told = (os.path.join(folder, name) for name in ("gx", "told"))
        with open(timed, "w") as file:
            file.write(GX_TIMED.format(told=told, gx=gx))
        os.chmod(timed, 0o755)
        words, more = [sys.executable, MIRROR, repository, store], {"env": {**os.environ, "GX": timed}}
        with as_before(store):
            run(words, **more)
        once = as_written(store)
        times, ours = [], []
        for _ in range(RUNS):
            open(told, "w").close()
            times.append(run(words, **more))
            with open(told) as lines:
                ours.append(sum(float(word) for word in lines.read().split()))
        assert as_written(store) == once, "nothing is written"
    processor, clock = middle(times)
    print(f"mirror with nothing new: {statistics.median(ours):.2f} s of gx, {processor:.2f} s of processor, {clock:.2f} s")


if __name__ == "__main__":
    kinds = {"stream": stream, "import": beside, "same": same, "drop": drop, "mirror": mirror}
    kinds[sys.argv[1]](*sys.argv[2:])
