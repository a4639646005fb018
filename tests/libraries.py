"""The library that the tests are over, and the Python module over it."""

from __future__ import annotations

import importlib
import os
import subprocess
import sys
from pathlib import Path
from types import ModuleType

import pytest

from programs import SCRIPTS, TOP

PROVED = TOP / "crates/gx_c/out/libgx_c.a"
TRIED = TOP / "out/try/libginlarch.so"


@pytest.fixture(scope="session")
def built(tmp_path_factory: pytest.TempPathFactory) -> Path:
    """The folder of libginlarch.a and libginlarch.so, as scripts/library.sh makes them."""
    if not PROVED.exists():
        pytest.skip("no library: `make library` makes it")
    folder = tmp_path_factory.mktemp("library")
    subprocess.run([SCRIPTS / "library.sh", folder], check=True, stdout=subprocess.DEVNULL)
    (folder / "libginlarch.so.1").symlink_to("libginlarch.so")
    return folder


@pytest.fixture(scope="session")
def shared(request: pytest.FixtureRequest) -> Path:
    """The shared library: that of GINLARCH_LIBRARY, the proved one, or that of `make library-try`."""
    named = os.environ.get("GINLARCH_LIBRARY")
    if named:
        return Path(named).resolve()
    if not PROVED.exists() and TRIED.exists():
        return TRIED
    return request.getfixturevalue("built") / "libginlarch.so"


@pytest.fixture(scope="session")
def ginlarch(shared: Path, gx_path: Path) -> ModuleType:
    """The module, over this library and this program."""
    os.environ.update(GINLARCH_LIBRARY=str(shared), GX=str(gx_path))
    sys.path.insert(0, str(TOP / "python"))
    return importlib.import_module("ginlarch")
