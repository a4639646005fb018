#!/usr/bin/env python3
"""Writes a generated stream to standard output.

  streams.py blob BYTES            one blob of so many bytes
  streams.py blobs COUNT BYTES     so many different blobs of so many bytes each
  streams.py commits BYTES         small commits, until about so many bytes are written
  streams.py history COMMITS       so many commits of source-like files in nested folders, with merges and tags; the number of
                                   files grows with that of commits
  streams.py steady COMMITS        a commit with 1,000 files, and behind it the same of about 1,000 files whose lengths stay about alike
  streams.py flat FILES COMMITS    so many files in one directory, and then so many commits that change one each
  streams.py forks COMMITS         a commit with 1,300 source-like files in directories of about a hundred, and behind it so many on
                                   eight branches, which begin anew at each other's tips, and merge each other
  streams.py mixed COMMITS         so many small commits on branches that merge, with all modes, quoted paths, submodules,
                                   empty trees and encodings, and tags and branches on old and on shared commits
"""
import sys
from random import Random


def one_blob(size):
    out = sys.stdout.buffer
    out.write(b'blob\ndata %d\n' % size)
    chunk = bytes(range(256)) * 4096
    left = size
    while left:
        part = chunk[:min(left, len(chunk))]
        out.write(part)
        left -= len(part)
    out.write(b'\n')


def many_blobs(count, size):
    out = sys.stdout.buffer
    for i in range(count):
        body = (b'%d\n' % i) * size
        out.write(b'blob\ndata %d\n%s\n' % (size, body[:size]))


def block(data):
    return b'data %d\n%s\n' % (len(data), data)


def commit(branch, mark, number, parents, changes):
    return b''.join([
        b'commit %s\nmark :%d\n' % (branch, mark),
        b'author A U Thor <author@example.com> %d +0100\n' % (1700000000 + number),
        b'committer C O Mitter <committer@example.com> %d +0100\n' % (1700000000 + number),
        block(b'Change file %d\n' % (number % 500)),
        parents,
        changes,
    ])


def inline_change(number):
    return b'M 100644 inline dir%d/file%d.txt\n' % (number % 20, number % 500) + block(b'line %d\n' % number * 8)


def commits(size):
    """Each third commit has a second change, by a blob's mark. Each fiftieth merges a commit of another branch."""
    out = sys.stdout.buffer
    written = 0
    number = 0
    mark = 0
    while written < size:
        number += 1
        text = b''
        parents = b''
        changes = inline_change(number)
        if number % 3 == 0:
            mark += 1
            text += b'blob\nmark :%d\n' % mark + block(b'shared %d\n' % number * 4)
            changes += b'M 100755 :%d tools/run%d\n' % (mark, number % 100)
        if number % 50 == 0:
            mark += 1
            side = b'from :%d\n' % (mark - 2 if number % 3 == 0 else mark - 1)
            text += commit(b'refs/heads/side', mark, number, side, b'D dir%d/file%d.txt\n' % (number % 20, number % 500))
            parents = b'merge :%d\n' % mark
        mark += 1
        text += commit(b'refs/heads/main', mark, number, parents, changes)
        out.write(text)
        written += len(text)


def turns(count, branches, checkpoints=0):
    out = sys.stdout.buffer
    for number in range(1, count + 1):
        out.write(commit(b'refs/heads/branch%03d' % (number % branches), number, number, b'', inline_change(number)))
        if checkpoints and number % checkpoints == 0:
            out.write(b'checkpoint\n\n')


def source_lines(random, count):
    words = [b'return', b'value', b'index', b'buffer', b'length', b'if', b'for', b'static', b'const', b'result']
    return b''.join(b'    %s %s = %s(%d);\n' % (*random.choices(words, k=3), random.randrange(1000)) for _ in range(count))


def edit_of(letter, path, files):
    other = path + b'.old'
    if letter != ord('D'):
        files[other] = files[path]
    if letter != ord('C'):
        del files[path]
    return b'D %s\n' % path if letter == ord('D') else b'%c %s %s\n' % (letter, path, other)


def grown(random, data, most_bytes):
    """Lines behind a file's own, of which the first half goes where there would be too many bytes."""
    data += source_lines(random, random.randint(1, 8))
    return data[data.index(b'\n', len(data) // 2) + 1:] if most_bytes and len(data) > most_bytes else data


def some_path(random):
    return b'src/module%d/part%d/file%d.c' % (random.randrange(12), random.randrange(6), random.randrange(1000))


def changes_of(random, files, most_files, most_bytes, new_path=some_path):
    """One to five changes: a new file, lines behind an old one, and now and then a removal, a copy or a rename."""
    text = b''
    for _ in range(random.randint(1, 5)):
        kind = random.random()
        if not files or kind < 0.25 and len(files) < most_files:
            path = new_path(random)
            files[path] = source_lines(random, random.randint(10, 120))
        elif kind < 0.94:
            path = random.choice(list(files))
            files[path] = grown(random, files[path], most_bytes)
        else:
            text += edit_of(random.choice(b'DCR'), random.choice(list(files)), files)
            continue
        text += b'M 100644 inline %s\n' % path + block(files[path])
    return text


def history(count, most_files=72000, most_bytes=0, first_files=0):
    """Each twentieth commit merges one of a side branch, and each hundredth is tagged."""
    random = Random(count)
    out = sys.stdout.buffer
    files = {}
    mark = 0
    if first_files:
        while len(files) < first_files:
            files[some_path(random)] = source_lines(random, random.randint(most_bytes // 60, most_bytes // 30))
        mark += 1
        out.write(commit(b'refs/heads/main', mark, 0, b'', b''.join(b'M 100644 inline %s\n' % path + block(files[path]) for path in files)))
    for number in range(1, count + 1):
        parents = b''
        if number % 20 == 0:
            mark += 1
            side = b'from :%d\n' % (mark - 1)
            note = b'M 100644 inline notes/side%d.txt\n' % number + block(b'side %d\n' % number)
            out.write(commit(b'refs/heads/side', mark, number, side, note))
            parents = b'from :%d\nmerge :%d\n' % (mark - 1, mark)
        mark += 1
        out.write(commit(b'refs/heads/main', mark, number, parents, changes_of(random, files, most_files, most_bytes)))
        if number % 100 == 0:
            out.write(b'tag v%d\nfrom :%d\ntagger T <t@example.com> %d +0000\n' % (number, mark, 1700000000 + number) + block(b'Version %d\n' % number))


def steady(count):
    history(count, 1000, 3000, 1000)


class Forks:
    """Eight lines of development: of each the mark at which it goes on, and its files there."""

    def __init__(self, count):
        self.random = Random(count)
        self.mark = 0
        files = {}
        while len(files) < 1400:
            files[wide_path(self.random)] = source_lines(self.random, self.random.randint(75, 215))
        self.lines = [(0, files)] * 8
        self.commit(0, b'', b''.join(b'M 100644 inline %s\n' % path + block(files[path]) for path in files))
        self.lines = self.lines[:1] * 8

    def commit(self, line, parents, changes):
        self.mark += 1
        ref = b'refs/heads/line%d' % line if line else b'refs/heads/main'
        sys.stdout.buffer.write(commit(ref, self.mark, self.mark, parents, changes))
        self.lines[line] = (self.mark, self.lines[line][1])

    def step(self):
        """A commit on some line. One in twelve merges another one, most of which go on from there: a topic that is merged, and the next."""
        line, other = self.random.sample(range(8), 2)
        mark, files = self.lines[line]
        theirs = self.lines[other][0]
        merges = theirs != mark and self.random.randrange(12) == 0
        files = dict(files)
        self.lines[line] = (mark, files)
        parents = b'from :%d\n' % mark + (b'merge :%d\n' % theirs if merges else b'')
        self.commit(line, parents, changes_of(self.random, files, 1500, 6800, wide_path))
        if merges and self.random.randrange(4):
            self.lines[other] = self.lines[line]


def wide_path(random):
    return b'src/module%d/file%d.c' % (random.randrange(12), random.randrange(1000))


def forks(count):
    history = Forks(count)
    for _ in range(count):
        history.step()


def flat(files, count):
    random = Random(files)
    out = sys.stdout.buffer
    for number in range(count + 1):
        changed = range(files) if number == 0 else [random.randrange(files)]
        changes = b''.join(b'M 100644 inline file%05d.c\n' % i + block(b'%d\n' % number + source_lines(random, 10)) for i in changed)
        out.write(commit(b'refs/heads/main', number + 1, number, b'', changes))


PATHS = [b'a', b'a.b', b'a/b', b'a/c', b'a0', b'lib/a b', b'lib/sub/x', b'"t\\tab"', b'"q\\"uote"', b'"\\303\\244/\\346\\227\\245"', b'z']


def mixed_change(random):
    kind = random.random()
    path = random.choice(PATHS)
    if kind < 0.04:
        return b'deleteall\n'
    if kind < 0.15:
        return b'D %s\n' % path
    if kind < 0.25:
        return b'M 160000 %040x modules/m%d\n' % (random.randrange(1, 2**160), random.randrange(3))
    mode = random.choice([b'100644', b'100755', b'120000'])
    return b'M %s inline %s\n' % (mode, path) + block(b'%d' % random.randrange(50))


def mixed_commit(random, branch, mark):
    """A commit with its mark. A merge is of one of the last commits, or of an old one."""
    encoding = random.choice([b'', b'', b'encoding ISO-8859-1\n'])
    merges = b'merge :%d\n' % random.randrange(1, mark) if mark > 8 and random.random() < 0.2 else b''
    return b''.join([
        b'commit %s\nmark :%d\n' % (branch, mark),
        b'author A U Thor <author@example.com> %d -0330\n' % (1700000000 + mark) if mark % 3 else b'',
        b'committer  <c@example.com> %d +1400\n' % (1700000000 + mark),
        encoding,
        block(b'Change %d\n' % mark if mark % 4 else b'no line feed'),
        merges,
        *(mixed_change(random) for _ in range(random.randrange(4))),
    ])


def mixed_refs(random, mark):
    old = random.randrange(1, mark + 1)
    kind = random.random()
    if kind < 0.05:
        return b'tag t%d\nfrom :%d\ntagger T <t@example.com> 1700000000 +0000\n' % (mark, old) + block(b'Tag %d\n' % mark)
    if kind < 0.08:
        return b'reset refs/tags/light%d\nfrom :%d\n' % (mark, old)
    if kind < 0.12:
        return b'reset refs/heads/at%d\nfrom :%d\n' % (mark, mark)
    return b''


def mixed(count):
    """Five branches, of which the last loses its commits at the end."""
    random = Random(count)
    out = sys.stdout.buffer
    out.write(b'blob\n' + block(b'reached by no ref'))
    for mark in range(1, count + 1):
        out.write(mixed_commit(random, b'refs/heads/b%d' % random.randrange(5), mark))
        out.write(mixed_refs(random, mark))
    out.write(b'reset refs/heads/b4\n')


kind, *sizes = sys.argv[1:]
{'blob': one_blob, 'blobs': many_blobs, 'commits': commits, 'history': history, 'steady': steady, 'flat': flat, 'forks': forks, 'turns': turns, 'mixed': mixed}[kind](*map(int, sizes))
