"""Which commits changed a path: what `git rev-list REV.. -- PATH..` lists, by git-log(1), "History Simplification", default mode.

Ranges that leave commits out aren't defined here: what git lists of them hangs on the order in which it comes to know what is
left out, and so on the dates of commits.
"""

from __future__ import annotations

from collections.abc import Iterable
from typing import NamedTuple

# what stands at a path: its mode and its object's name
Files = dict[bytes, tuple[bytes, bytes]]


class Commits(NamedTuple):
    """The parents of each commit, and what stands at the paths of its tree, directories, too."""

    parents: dict[bytes, list[bytes]]
    files: dict[bytes, Files]

    def same_at(self, paths: list[bytes], commit: bytes, parent: bytes | None) -> bool:
        """Whether nothing differs at the paths, or below them; of no parent, whether nothing stands there."""
        before = self.files[parent] if parent else {}
        return all(self.files[commit].get(path) == before.get(path) for path in paths)


def listed(commits: Commits, tips: Iterable[bytes], paths: list[bytes]) -> set[bytes]:
    """The commits that differ at the paths from each of their parents, roots from nothing.

    From a commit that is as one of its parents the way leads to the first such one alone, and from each other one to all.
    """
    seen: set[bytes] = set()
    found: set[bytes] = set()
    ahead = list(tips)
    while ahead:
        commit = ahead.pop()
        if commit in seen:
            continue
        seen.add(commit)
        parents = commits.parents[commit]
        alike = next((parent for parent in parents if commits.same_at(paths, commit, parent)), None)
        if alike is None and (parents or not commits.same_at(paths, commit, None)):
            found.add(commit)
        ahead += [alike] if alike else parents
    return found
