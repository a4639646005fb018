"""What the tests of stores as remotes share."""

from __future__ import annotations

from pathlib import Path

import pytest
from remote_world import World


@pytest.fixture
def world(tmp_path: Path, gx_path: Path) -> World:
    """A folder where git uses a store."""
    return World(tmp_path, "store.gx", gx_path)
