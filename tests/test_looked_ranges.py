"""Exports of ranges of growing stores, which read what they send: the stream is that of version 2."""

from __future__ import annotations

import hashlib
from collections.abc import Callable
from pathlib import Path

from hypothesis import given
from hypothesis import strategies as st

from histories import Step, histories
from programs import Program, counted
from test_looks import asked, in_segments, parts_of, ranges

SUFFIXES = ["", "", "", "", "~1", "^", "^0", "^2", "~2", "^{}"]


@st.composite
def words(draw: st.DrawFn, names: list[str]) -> list[str]:
    """Words of ranges, of which the last one often excludes a commit's parents."""
    revisions = st.tuples(st.sampled_from(names), st.sampled_from(SUFFIXES)).map("".join)
    made = draw(st.lists(st.one_of(ranges(revisions), revisions), max_size=2))
    last = draw(st.sampled_from([[], [f"{draw(revisions)}^!"], [f"^{draw(revisions)}^"]]))
    return [draw(st.sampled_from(names)), *made, *last]


@given(changes=histories(8), data=st.data())
def test_random_ranges(
    changes: list[Step], data: st.DataObject, gx: Program, new_store: Callable[..., Path]
) -> None:
    """Whatever a range sends, it is the same of a store of version 2, of the one that it grows to, and of
    one of another writer."""
    plain = new_store(name="ranges-" + hashlib.sha1(repr(changes).encode()).hexdigest())
    for change in changes:
        gx("import", plain, "--force", stdin=change.stream)
    text = plain.read_bytes()
    one, many = plain.with_suffix(".one"), plain.with_suffix(".many")
    one.write_bytes(text)
    gx.prints("grow", one)
    many.write_bytes(in_segments(text)[0])
    records, refs = parts_of(text)
    commits = [record.name.hex() for record in records if record.kind in (b"commit", b"tag")]
    names = [ref.decode() for ref in refs] + commits
    for asking in data.draw(st.lists(words(names), min_size=8, max_size=20)):
        form = data.draw(st.sampled_from([[], ["--no-done"]]))
        question = ["export", "--changes", *form, "--", "STORE", *asking]
        answers = [asked(gx, store, question, b"") for store in (plain, one, many)]
        assert answers[1] == answers[0], question
        assert answers[2] == answers[0], question
        sends = b"\ncommit " in answers[0].out
        counted["random ranges that are sent" if sends else "other random ranges"] += 1
    for store in (plain, one, many):
        store.unlink()
