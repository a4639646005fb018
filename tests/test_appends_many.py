"""Many imports into a growing store: how many live runs they leave, and what they write beside the
objects. With --long there are 2,000 of each kind.
"""

from __future__ import annotations

import random
from pathlib import Path

import pytest

from growing_texts import live_runs, record_lines
from programs import Program, counted

BODY = 3000


def stream_of(number: int, objects: int, randoms: random.Random) -> bytes:
    """Blobs, and a commit that has the last one."""
    blobs = (randoms.randbytes(BODY // 2).hex().encode() for _ in range(objects - 2))
    text = b"".join(b"blob\nmark :1\ndata %d\n%s\n" % (len(body), body) for body in blobs)
    start = b"from refs/heads/main^0\n" if number else b""
    head = b"commit refs/heads/main\ncommitter A <a@x> %d +0000\ndata 2\nm\n" % number
    return text + head + start + b"M 100644 :1 file\n\n"


KINDS = {
    "even": lambda randoms: 12,
    "drawn": lambda randoms: randoms.randint(3, 21),
    "falling": lambda randoms: min(60, int(3 / (1 - randoms.random()))),
}


@pytest.mark.parametrize("kind", KINDS)
def test_runs(
    request: pytest.FixtureRequest, gx: Program, tmp_path: Path, kind: str, randoms: random.Random
) -> None:
    """Live runs stay few, and a tenth stands beside the objects."""
    store, count = tmp_path / "store", 2000 if request.config.getoption("long") else 50
    gx.prints("init", "--growing", store)
    most = 0
    for number in range(count):
        gx.prints("import", store, stdin=stream_of(number, KINDS[kind](randoms), randoms))
        most = max(most, len(live_runs(store.read_bytes())))
    text = store.read_bytes()
    lines = [line.split() for line in record_lines(text)]
    objects = sum(int(size) + 1 + len(b" ".join(line)) + 1 for line in lines for size in line[1:2])
    print(f"{kind}: {most} live runs at most, {len(text) / objects - 1:.3f} beside the objects")
    assert sum(run.count for run in live_runs(text)) == len(lines)
    assert most <= 10
    assert len(text) <= 1.1 * objects
    gx.prints("verify", store)
    counted["imports one behind the other"] += count
