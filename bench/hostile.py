#!/usr/bin/env python3
"""Writes an input whose size is meant to hurt to standard output.

  hostile.py KIND SIZE

Streams:
  line BYTES           one line of so many bytes, without an LF
  progress COUNT       so many empty `progress` commands
  marks COUNT          so many marks, all of one blob
  changes COUNT        one commit with so many changes of one path
  directory COUNT      one commit that makes so many files in one directory, the last name first
  deep COMMITS         so many commits, each of which changes a path of 4,095 bytes in 2,048 components
  swap COMMITS         so many commits, each of which puts a directory in the place of a file, and the file back
  resets COUNT         so many branches, each set to one commit, and then each left without one
  parents COUNT        so many commits, and one that has all of them as parents
  tags COUNT           so many tags of one commit
  rename LEVELS        20 commits, each of which renames the root's only directory into itself so often
  copies COMMITS       so many commits, each of which puts two copies of a directory in its place, and so doubles its paths
  reload COMMITS       the same, and a branch from the commit before the last, at which no branch stands
  chain COMMITS        so many commits, one after the other
  nothing COUNT        so many removals of paths at which nothing is, in a directory of as many files
  renames COUNT        each of so many files renamed within its directory
  folders COUNT        each of so many directories renamed within the root
  between COUNT        each of so many files renamed from one directory to another
  copied COUNT         one directory copied to so many names
  random COUNT         so many files in one directory, in random order
  emptied COUNT        so many files in one directory, removed from the first on
  changed COMMITS      so many commits, each of which copies a directory of a hundred files and changes one file of the copy
  shared COUNT         so many changes below a shared subdirectory of a root with as many files
  old COUNT            so many branches from one old commit of as many files, each with a commit
  tagged COUNT         so many tags, and then as many checkpoints
  standing COUNT       so many branches, and then as many checkpoints
  new COUNT            so many branches, each with a checkpoint
  moved COUNT          so many branches of one commit, each moved by twenty commits of one line before a checkpoint
  back COUNT           a line of so many commits, whose branch moves to its root and back before each of as many checkpoints
  merges COUNT         one commit that merges the first so many ancestors of a published commit, each by `~`
  zeros BYTES          a block of so many bytes, whose count has as many leading zeros
  delimiter BYTES      a block of so many bytes, whose delimiter has as many
  stale COMMITS        so many commits, each of which doubles the paths of a directory, and a copy to a long path
  fronts COUNT         so many files whose names begin each other, in twenty commits

Texts of stores:
  claimed COUNT        ten records, and so many claimed
"""
import sys
from itertools import islice
from random import Random

REF = b'refs/heads/main'


def write_all(parts):
    """Writes many short parts a few thousand at a time."""
    out = sys.stdout.buffer
    parts = iter(parts)
    while chunk := b''.join(islice(parts, 8192)):
        out.write(chunk)


def block(data):
    return b'data %d\n%s\n' % (len(data), data)


def commit(number, ref=REF):
    """The head of a commit, whose mark and seconds are its number."""
    return b'commit %s\nmark :%d\ncommitter C <c@x> %d +0000\ndata 0\n' % (ref, number, number)


def numbers(size):
    return range(1, size + 1)


def line(size):
    word = b'progress '
    left = size - len(word)
    yield word
    while left > 0:
        yield b'a' * min(left, 65536)
        left -= 65536


def progress(size):
    return (b'progress \n' for _ in numbers(size))


def marks(size):
    return (b'blob\nmark :%d\ndata 0\n' % number for number in numbers(size))


def two_blobs():
    """Two blobs, whose marks are 1 and 2."""
    return b'blob\nmark :1\n' + block(b'one') + b'blob\nmark :2\n' + block(b'two')


def changes(size):
    yield two_blobs()
    yield commit(3)
    for number in numbers(size):
        yield b'M 100644 :%d folder/file\n' % (1 + number % 2)


def directory(size):
    yield two_blobs()
    yield commit(3)
    for number in reversed(numbers(size)):
        yield b'M 100644 :1 folder/file%07d\n' % number


def deep(size):
    path = b'/'.join([b'a'] * 2048)
    for number in numbers(size):
        yield commit(number) + b'M 100644 inline %s\n' % path + block(b'%d' % number)


def swap(size):
    for number in numbers(size):
        yield commit(number) + b'M 100644 inline a/b/c\n' + block(b'%d' % number) + b'M 100644 inline a\n' + block(b'file')


def resets(size):
    yield commit(1)
    for number in numbers(size):
        yield b'reset refs/heads/b%d\nfrom :1\n\n' % number
    for number in numbers(size):
        yield b'reset refs/heads/b%d\n\n' % number


def chain(size):
    return (commit(number) for number in numbers(size))


def parents(size):
    yield from chain(size)
    yield commit(size + 1, b'refs/heads/all') + b'from :1\n'
    for number in numbers(size)[1:]:
        yield b'merge :%d\n' % number


def tags(size):
    yield commit(1)
    for number in numbers(size):
        yield b'tag t%d\nfrom :1\ntagger T <t@x> %d +0000\ndata 0\n' % (number, number)


def rename(size):
    for number in numbers(20):
        yield commit(number) + b'deleteall\nM 100644 inline d/f\n' + block(b'%d' % number)
        for _ in numbers(size):
            yield b'R d d/d\n'


def copies(size):
    yield commit(1) + b'M 100644 inline a\n' + block(b'file')
    for number in numbers(size):
        yield commit(1 + number) + b'C a b/x\nC a b/y\nR b a\n'


def reload(size):
    yield from copies(size)
    yield commit(2 + size) + b'M 100644 inline c\n' + block(b'last')
    yield commit(3 + size, b'refs/heads/again') + b'from :%d\nM 100644 inline d\n' % (1 + size) + block(b'again')


def root_files(size, path=b'file%07d'):
    return (b'M 100644 :1 ' + path % number + b'\n' for number in numbers(size))


def one_commit(*parts):
    """Two blobs, and a commit of these changes."""
    yield two_blobs()
    yield commit(3)
    for part in parts:
        yield from part


def nothing(size):
    return one_commit(root_files(size), (b'D gone%07d\n' % number for number in numbers(size)))


def renames(size):
    return one_commit(root_files(size, b'd/%07d'), (b'R d/%07d d/n%07d\n' % (number, number) for number in numbers(size)))


def folders(size):
    return one_commit(root_files(size, b'%07d/f'), (b'R %07d n%07d\n' % (number, number) for number in numbers(size)))


def between(size):
    return one_commit(root_files(size, b'd/%07d'), (b'R d/%07d e/%07d\n' % (number, number) for number in numbers(size)))


def copied(size):
    return one_commit(root_files(1, b'd/%d'), (b'C d/1 e/n%07d/f\nC e/n%07d m%07d\n' % (number, number, number) for number in numbers(size)))


def shuffled(size):
    order = list(numbers(size))
    Random(size).shuffle(order)
    return order


def random(size):
    return one_commit(b'M 100644 :1 folder/file%07d\n' % number for number in shuffled(size))


def emptied(size):
    return one_commit(root_files(size, b'd/%07d'), (b'D d/%07d\n' % number for number in numbers(size)))


def changed(size):
    yield from one_commit(root_files(100, b'd/%03d'))
    for number in numbers(size):
        yield commit(3 + number) + b'C d c%07d\nM 100644 :2 c%07d/%03d\n' % (number, number, 1 + number % 100)


def shared(size):
    copies = (b'C d e\nM 100644 :%d e/f\n' % (1 + number % 2) for number in numbers(size))
    return one_commit(root_files(1, b'd/%d'), root_files(size), copies)


def old(size):
    yield from one_commit(root_files(size, b'd/%07d'))
    for number in numbers(size):
        yield commit(3 + number, b'refs/heads/b%07d' % number) + b'from :3\nM 100644 :2 d/%07d\n' % number


def tagged(size):
    yield from tags(size)
    yield b'checkpoint\n' * size


def standing(size):
    yield from islice(resets(size), 1 + size)
    yield b'checkpoint\n' * size


def new(size):
    yield commit(1)
    for number in numbers(size):
        yield b'reset refs/heads/b%d\nfrom :1\n\ncheckpoint\n' % number


def moved(size):
    yield from chain(20 * size)
    for number in numbers(size):
        yield b'reset refs/heads/b%d\nfrom :1\n\n' % number
    yield b'checkpoint\n'
    for number in numbers(size):
        yield b'reset refs/heads/b%d\nfrom :%d\n\n' % (number, 20 * number)
    yield b'checkpoint\n'


def back(size):
    yield from chain(size)
    yield b'checkpoint\n'
    for number in numbers(size):
        yield b'reset refs/heads/main\nfrom :1\n\nreset refs/heads/main\nfrom :%d\n\ncheckpoint\n' % size


def merges(size):
    yield from chain(size + 1)
    yield b'checkpoint\n' + commit(size + 2, b'refs/heads/all') + b'from refs/heads/main\n'
    for number in numbers(size):
        yield b'merge refs/heads/main~%d\n' % number


def zeros(size):
    yield b'blob\ndata '
    yield b'0' * size
    yield b'%d\n' % size
    yield b'b' * size


def delimiter(size):
    yield b'blob\ndata <<'
    yield b'E' * size
    yield b'\n'
    yield b'b' * size
    yield b'\n'
    yield b'E' * size
    yield b'\n'


def stale(size):
    long = b'd/' + b'/'.join([b'x' * 195] * 20)
    yield commit(1) + b'M 100644 inline d/f\n' + block(b'f') + b'M 100644 inline %s\n' % long + block(b'l') + b'D %s\n' % long
    for number in numbers(size):
        yield commit(1 + number) + b'C d e/a\nC d e/b\nR e d\n'
    yield commit(2 + size) + b'C d ' + b'y' * max(1, 178 - 2 * size) + b'\n'


def fronts(size):
    yield from one_commit(root_files(1, b'b%d'), (b'M 100644 :1 %s\n' % (b'a' * number) for number in numbers(size)))
    for number in numbers(20):
        yield commit(3 + number) + b'M 100644 :%d b1\n' % (1 + number % 2)


def claimed(size):
    yield b'gxstore 1\nobjects %d\n' % size
    for number in range(10):
        yield b'blob 1\n%d\n' % number


KINDS = [
    line, progress, marks, changes, directory, deep, swap, resets, parents, tags, rename, copies, reload, chain, nothing, renames, folders,
    between, copied, random, emptied, changed, shared, old, tagged, standing, new, moved, back, merges, zeros, delimiter, stale, fronts, claimed,
]

kind, size = sys.argv[1:]
write_all({made.__name__: made for made in KINDS}[kind](int(size)))
