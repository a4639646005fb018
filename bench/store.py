#!/usr/bin/env python3
"""Writes the text of a store to standard output: one branch whose commits edit source-like files in nested folders.

  store.py BYTES [SHAPE]      a text of about so many bytes, of the SHAPE

  source      files of about 8 KiB, one to five changes in a commit; as left out
  large       files of 1 MiB, one change in a commit
  deep        as source, but up to 4,600 files in more than 6,000 directories, each below five of them
"""
import hashlib
import sys
from random import Random

SHAPES = {'source': (8192, 2000, 5), 'large': (1048576, 40, 1), 'deep': (8192, 4600, 5)}
WORDS = [b'return', b'value', b'index', b'buffer', b'length', b'if', b'for', b'static', b'const', b'result']


class Store:
    """The records of a text, each with its name."""

    def __init__(self):
        self.records = []
        self.names = set()
        self.size = 0

    def add(self, kind, body):
        name = hashlib.sha1(b'%s %d\0' % (kind, len(body)) + body).digest()
        if name not in self.names:
            self.names.add(name)
            self.records.append((kind, name, body))
            self.size += len(body) + len(kind) + 50
        return name

    def write(self, out, ref, name):
        out.write(b'gxstore 2\nobjects %d\n' % len(self.records))
        for kind, name_of_record, body in self.records:
            out.write(b'%s %d %s\n' % (kind, len(body), name_of_record.hex().encode()))
            out.write(body)
            out.write(b'\n')
        out.write(b'refs 1\n%s %s\nend\n' % (name.hex().encode(), ref))


class Folder:
    """A folder of a branch. It keeps the name of its tree until something below changes."""

    def __init__(self):
        self.files = {}
        self.folders = {}
        self.name = None

    def put(self, path, name):
        self.name = None
        if len(path) == 1:
            self.files[path[0]] = name
        else:
            self.folders.setdefault(path[0], Folder()).put(path[1:], name)

    def save(self, store):
        if self.name is None:
            entries = [(component, b'100644', name) for component, name in self.files.items()]
            entries += [(component + b'/', b'40000', folder.save(store)) for component, folder in self.folders.items()]
            body = b''.join(b'%s %s\0%s' % (mode, component.rstrip(b'/'), name) for component, mode, name in sorted(entries))
            self.name = store.add(b'tree', body)
        return self.name


def line(random):
    return b'    %s %s = %s(%d);\n' % (*random.choices(WORDS, k=3), random.randrange(1000))


def fresh_text(random, lines, size):
    least = random.randrange(size // 2, size * 3 // 2)
    return b''.join(random.choices(lines, k=least // 25))[:least]


def edited(random, lines, text):
    """The text with a few lines put in the place of others."""
    start = text.find(b'\n', random.randrange(len(text))) + 1
    few = b''.join(random.choices(lines, k=random.randint(1, 8)))
    return text[:start] + few + text[start + len(few):]


def path_of(number, shape):
    if shape == 'deep':
        part = number * 2 // 5
        return [b'area%d' % (part % 23), b'module%d' % (part // 23 % 23), b'part%d' % part, b'src', b'main', b'file%d.c' % number]
    return [b'src', b'module%d' % (number % 12), b'part%d' % (number // 12 % 6), b'file%d.c' % number]


def commit_body(tree, parents, number):
    date = 1700000000 + 60 * number
    return b''.join([
        b'tree %s\n' % tree.hex().encode(),
        *(b'parent %s\n' % parent.hex().encode() for parent in parents),
        b'author A U Thor <author@example.com> %d +0100\n' % date,
        b'committer C O Mitter <committer@example.com> %d +0100\n' % date,
        b'\nChange %d\n' % number,
    ])


def changed_files(random, held, most, changes):
    """The numbers of the files that a commit changes, those from `held` on being new: a third of them while there may be more."""
    count = random.randint(1, changes)
    new = min(most - held, max(held == 0, sum(random.random() < 0.33 for _ in range(count))))
    return [*range(held, held + new), *random.sample(range(held), min(held, count - new))]


def history(store, size, shape):
    """Commits until the records have about so many bytes."""
    length, most, changes = SHAPES[shape]
    random = Random(size)
    lines = [line(random) for _ in range(4096)]
    root = Folder()
    texts = []
    parents = []
    number = 0
    while store.size < size:
        number += 1
        for place in changed_files(random, len(texts), most, changes):
            if place == len(texts):
                texts.append(b'/* file %d */\n' % place + fresh_text(random, lines, length))
            else:
                texts[place] = edited(random, lines, texts[place])
            root.put(path_of(place, shape), store.add(b'blob', texts[place]))
        parents = [store.add(b'commit', commit_body(root.save(store), parents, number))]
    return parents[0]


size, shape = int(sys.argv[1]), (sys.argv[2:] or ['source'])[0]
store = Store()
store.write(sys.stdout.buffer, b'refs/heads/main', history(store, size, shape))
