"""Bodies of commits and tags, as git writes them and changed at random."""

from __future__ import annotations

import random
import re
from typing import NamedTuple

SIGNATURE = b"gpgsig -----BEGIN PGP SIGNATURE-----\n \n iQEzBAABCAAd\n -----END PGP SIGNATURE-----\n"
FURTHER = [SIGNATURE, b"HG:extra branch:side\n", b"encoding\n", b"gpgsig-sha256 x\n y\n"]
FURTHER += [b"mergetag object %040x\n type commit\n tag v1\n \n x\n" % 1]
WORDS = [b"", b"\n", b" ", b"\t", b"\0", b"<", b">", b"0", b"1", b"-", b"+", b"A", b"\xff", b"\r\n"]
# times and zones behind an email
WHENS = [b"0", b"00", b"01", b"-1", b"+1", b"1 ", b"", b"x", b"99999999999", b"4294967296"]
WHENS += [b"%d" % (2**shift + more) for shift in (31, 63, 64) for more in (-1, 0)]
ZONES = [b"+0000", b"-0000", b"+1400", b"+1401", b"-9999", b"+00000", b"+100", b"0000", b"", b"UTC"]
WHO = re.compile(rb"(?<=> )(\d+) ([+-]\d+)(?=\n)")


class Names(NamedTuple):
    """The objects that bodies name."""

    tree: bytes
    commit: bytes
    blob: bytes


def commit_of(names: Names, chance: random.Random) -> bytes:
    """A commit that git takes."""
    parents = b"".join(b"parent %s\n" % names.commit for _ in range(chance.randrange(2)))
    who = b"%s %d +0%d00\n"
    name = chance.choice([b"A U Thor <a@x>", b"A <a@x>", b"A <>", b"Zo\xc3\xab <z@x>"])
    lines = [b"tree %s\n" % names.tree, parents]
    lines += [word + who % (name, chance.randrange(1, 2**31), 1) for word in (b"author ", b"committer ")]
    lines += [b"encoding ISO-8859-1\n"] if chance.random() < 0.2 else []
    lines += [chance.choice(FURTHER)] if chance.random() < 0.3 else []
    return b"".join(lines) + chance.choice([b"\nx\n", b"\nx", b"\n", b"\n\n\nx\n", b"\nx\n\ny\n", b""])


def tag_of(names: Names, chance: random.Random) -> bytes:
    """A tag that git takes."""
    kind, name = chance.choice([(b"commit", names.commit)] * 4 + [(b"tree", names.tree), (b"blob", names.blob)])
    lines = [b"object %s\ntype %s\n" % (name, kind), b"tag " + chance.choice([b"v1", b"a/b", b"v.1"]) + b"\n"]
    lines += [b"tagger A <a@x> %d -0500\n" % chance.randrange(1, 2**31)] if chance.random() < 0.9 else []
    lines += [chance.choice(FURTHER)] if chance.random() < 0.1 else []
    return b"".join(lines) + chance.choice([b"\nx\n", b"\nx", b"\n", b""])


def changed_lines(body: bytes, chance: random.Random) -> bytes:
    """A line left out, told twice, moved, or put in from another place."""
    lines = body.splitlines(True)
    at, other = chance.randrange(len(lines)), chance.randrange(len(lines))
    how = chance.randrange(4)
    if how == 0:
        del lines[at]
    elif how == 1:
        lines.insert(at, lines[other])
    elif how == 2:
        lines[at], lines[other] = lines[other], lines[at]
    else:
        lines.insert(at, chance.choice([*FURTHER, b"encoding UTF-8\n", b"author A <a@x> 1 +0000\n", b"x\n"]))
    return b"".join(lines)


def changed_bytes(body: bytes, chance: random.Random) -> bytes:
    """Some bytes in the place of others, more often in the headers."""
    at = chance.randrange(len(body)) if chance.random() < 0.5 else chance.randrange(40, len(body))
    return body[:at] + chance.choice(WORDS) + body[at + chance.randrange(3) :]


def changed_times(body: bytes, chance: random.Random) -> bytes:
    found = list(WHO.finditer(body))
    if not found:
        return changed_bytes(body, chance)
    start, end = chance.choice(found).span()
    when, _, zone = body[start:end].partition(b" ")
    if chance.random() < 0.5:
        when = chance.choice(WHENS)
    else:
        zone = chance.choice(ZONES)
    return body[:start] + when + b" " + zone + body[end:]


def changed(body: bytes, chance: random.Random) -> bytes:
    """A body with one change or two, seldom with none."""
    for _ in range(chance.choice([0, 1, 1, 1, 1, 1, 1, 2, 3])):
        how = chance.choice([changed_lines, changed_bytes, changed_bytes, changed_times])
        body = how(body, chance) or b"\n"
    return body if chance.random() < 0.95 else body[: chance.randrange(len(body) + 1)]
