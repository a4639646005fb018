#!/usr/bin/env python3
"""Writes a generated stream of a history that branches to standard output. Each begins with a commit of FILES files, a hundred in
each directory, and each later commit changes one.

  branching.py topics FILES COUNT       so many topics of five commits, each merged, all on one ref, as `git fast-export --all` writes
                                        topics whose branches are gone
  branching.py named FILES COUNT        the same, each topic on a branch of its own, which stays
  branching.py lines FILES COUNT        two lines of development on one ref, so many commits in turn
  branching.py branches FILES COUNT     so many branches from the first commit, and then a commit more on each
  branching.py rebased FILES COUNT      so many branches of three commits, each made anew ten times on a base that moves on
  branching.py octopus FILES COUNT      so many merges of eight branches each, whose bases are older and older commits
  branching.py tags FILES COUNT         the directory `trunk` copied to so many tags and a fifth as many branches, as svn writes
                                        them, each copy with a change
  branching.py project FILES COUNT      so many commits of topics that merge others and each other, of tags on side branches, and of
                                        branches that stay: a repository to be written by `git fast-export --all`
"""
import sys
from random import Random

MAIN = b'refs/heads/main'


def block(data):
    return b'data %d\n%s\n' % (len(data), data)


class Stream:
    """Commits with marks from 1 on."""

    def __init__(self, files, prefix=b''):
        self.random = Random(files)
        self.files = files
        self.prefix = prefix
        self.mark = 0
        self.first = self.commit(MAIN, (), b''.join(self.change(file, b'') for file in range(files)))

    def change(self, file, below):
        path = below or self.prefix
        return b'M 100644 inline %sdir%03d/file%02d.c\n' % (path, file // 100, file % 100) + block(b'%d %d\n' % (self.mark, file) * 4)

    def one_change(self, below=b''):
        return self.change(self.random.randrange(self.files), below)

    def commit(self, ref, parents, changes=None):
        """A commit, by default with one change. The first parent is named by `from`, the others by `merge`."""
        changes = self.one_change() if changes is None else changes
        self.mark += 1
        words = [b'from', *[b'merge'] * (len(parents) - 1)]
        sys.stdout.buffer.write(b''.join([
            b'commit %s\nmark :%d\n' % (ref, self.mark),
            b'committer C O Mitter <committer@example.com> %d +0100\n' % (1700000000 + self.mark),
            block(b'Change %d\n' % self.mark),
            *(b'%s :%d\n' % row for row in zip(words, parents)),
            changes,
        ]))
        return self.mark

    def commits(self, ref, parent, count):
        for _ in range(count):
            parent = self.commit(ref, (parent,))
        return parent

    def tag(self, name, mark):
        sys.stdout.buffer.write(b'tag %s\nfrom :%d\ntagger T <t@example.com> 1700000000 +0000\n' % (name, mark) + block(name))


def topics(files, count, ref=MAIN):
    stream = Stream(files)
    main = stream.first
    for number in range(count):
        topic = stream.commits(ref.replace(b'*', b'%05d' % number), main, 5)
        main = stream.commit(MAIN, (main, topic))


def named(files, count):
    topics(files, count, b'refs/heads/topic*')


def lines(files, count):
    stream = Stream(files)
    ends = [stream.first] * 2
    for number in range(count):
        ends[number % 2] = stream.commit(MAIN, (ends[number % 2],))
    stream.commit(MAIN, ends)


def branches(files, count):
    stream = Stream(files)
    names = [b'refs/heads/branch%05d' % number for number in range(count)]
    ends = [stream.commit(name, (stream.first,)) for name in names]
    for name, end in zip(names, ends):
        stream.commit(name, (end,))


def rebased(files, count):
    stream = Stream(files)
    main = stream.first
    for _ in range(10):
        for number in range(count):
            stream.commits(b'refs/heads/branch%05d' % number, main, 3)
        main = stream.commits(MAIN, main, 5)


def octopus(files, count):
    stream = Stream(files)
    mains = [stream.first]
    for number in range(count):
        arms = [stream.commit(b'refs/heads/arm%d' % arm, (mains[-1 - arm * len(mains) // 8],)) for arm in range(8)]
        mains.append(stream.commit(MAIN, (mains[-1], *arms)))


def copied(stream, main, ref, path):
    """A copy of trunk, and a change in it."""
    change = b'C trunk %s\n' % path.rstrip(b'/') + stream.one_change(path)
    return stream.commit(ref, (main,), change)


def tags(files, count):
    stream = Stream(files, b'trunk/')
    main = stream.first
    for number in range(count):
        main = copied(stream, main, MAIN, b'tags/v%05d/' % number)
        if number % 5 == 0:
            main = copied(stream, main, MAIN, b'branches/b%05d/' % number)
        main = stream.commit(MAIN, (main,))


def project(files, count):
    stream = Stream(files)
    random = stream.random
    main = stream.first
    sides = [stream.first]
    number = 0
    while stream.mark < count:
        number += 1
        topic = stream.commits(b'refs/heads/topic%05d' % (number % 40), random.choice([main, main, sides[-1]]), random.randint(2, 9))
        if number % 3 == 0:
            topic = stream.commit(b'refs/heads/topic%05d' % (number % 40), (topic, random.choice(sides)))
        if number % 7 == 0:
            stream.tag(b'side-%d' % number, topic)
        else:
            main = stream.commit(MAIN, (main, topic))
        sides = [*sides[-20:], topic]
    stream.tag(b'last', main)


kind, *sizes = sys.argv[1:]
shapes = (topics, named, lines, branches, rebased, octopus, tags, project)
{shape.__name__: shape for shape in shapes}[kind](*map(int, sizes))
