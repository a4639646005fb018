"""scripts/dist.sh: the release that it makes of the program and the proved library."""

from __future__ import annotations

import os
import subprocess
import sys
import tarfile
from pathlib import Path

import pytest
from libraries import PROVED
from programs import SCRIPTS, TOP, run_program

NAME = "ginlarch-1.0.0-linux-x86_64.tar.xz"


def head() -> str:
    done = run_program(["git", "-C", TOP, "rev-parse", "HEAD"])
    return done.out.decode().strip()


@pytest.fixture(scope="session")
def made(gx_path: Path, tmp_path_factory: pytest.TempPathFactory) -> list[Path]:
    """Two folders, each with a release."""
    if not PROVED.exists():
        pytest.skip("no library: `make library` makes it")
    if subprocess.run(["/usr/bin/python3", "-c", "import setuptools, wheel"]).returncode:
        pytest.skip("python3-setuptools or python3-wheel is missing")
    folders = [tmp_path_factory.mktemp("dist") for _ in range(2)]
    for folder in folders:
        environment = {**os.environ, "GX": str(gx_path), "COMMIT": head()}
        done = run_program([SCRIPTS / "dist.sh", folder], env=environment, timeout=600)
        assert done.status == 0, done.err
    return folders


@pytest.fixture(scope="session")
def unpacked(made: list[Path], tmp_path_factory: pytest.TempPathFactory) -> Path:
    folder = tmp_path_factory.mktemp("unpacked")
    with tarfile.open(made[0] / NAME) as tar:
        tar.extractall(folder)
    return folder / "ginlarch-1.0.0"


def test_equal(made: list[Path]) -> None:
    """Two runs make the same bytes, with their sum beside them."""
    first, second = ((folder / NAME).read_bytes() for folder in made)
    assert first == second
    done = run_program(["sha256sum", "--check", f"{NAME}.sha256"], cwd=made[0])
    assert done.status == 0, done.err


def test_whole(unpacked: Path) -> None:
    """Each file has its sum, and none is without."""
    done = run_program(["sha256sum", "--check", "--quiet", "SHA256SUMS"], cwd=unpacked)
    assert (done.status, done.out) == (0, b"")
    told = {line[66:] for line in (unpacked / "SHA256SUMS").read_text().splitlines()}
    files = {str(path.relative_to(unpacked)) for path in unpacked.rglob("*") if path.is_file()}
    assert files == told | {"SHA256SUMS"}
    assert {"MADE", "bin/gx", "bin/git-remote-gx", "share/man/man1/gx.1"} <= files
    assert {"lib/libginlarch.a", "lib/libginlarch.so.1", "include/ginlarch.h"} <= files


def test_commit(unpacked: Path) -> None:
    """The program tells the commit that the release is of."""
    assert (unpacked / "MADE").read_text().splitlines()[0] == f"commit {head()}"
    done = run_program([unpacked / "bin/gx", "--version"])
    assert head().encode() in done.out


def test_linked(unpacked: Path, tmp_path: Path) -> None:
    """A C program is built with what pkg-config tells of the folder that it was unpacked to."""
    source = tmp_path / "a.c"
    source.write_text('#include "ginlarch.h"\nint main(void) { return 0; }\n')
    told = run_program(
        ["pkg-config", "--cflags", "--libs", "ginlarch"],
        env={**os.environ, "PKG_CONFIG_PATH": str(unpacked / "lib/pkgconfig")},
    )
    assert told.status == 0, told.err
    words = ["cc", "-o", tmp_path / "a", source, *told.out.decode().split()]
    assert run_program(words).status == 0


def test_wheel(unpacked: Path, tmp_path: Path) -> None:
    """pip installs the wheel, and the module finds the library that came with it."""
    if subprocess.run([sys.executable, "-m", "pip", "--version"], capture_output=True).returncode:
        pytest.skip("no pip")
    wheel = next(unpacked.glob("*.whl"))
    words = [sys.executable, "-m", "pip", "install", "--no-index", "--target", tmp_path, wheel]
    assert run_program(words, timeout=300).status == 0
    code = "import ginlarch; print(ginlarch.__file__); ginlarch.Repository().close()"
    lacking = {name: held for name, held in os.environ.items() if name != "GINLARCH_LIBRARY"}
    done = run_program(
        [sys.executable, "-c", code], env={**lacking, "PYTHONPATH": str(tmp_path)}, cwd=tmp_path
    )
    assert (done.status, done.out.decode().startswith(str(tmp_path))) == (0, True), done.err
