"""The built library: its examples, calls at random, want of memory, and what is installed of it."""

from __future__ import annotations

import os
import shutil
import subprocess
from collections.abc import Callable
from pathlib import Path

import pytest

from libraries import built  # noqa: F401
from programs import SCRIPTS, TOP, Done, Program, Word, printed, run_program

DIGITS = b"02d6adf1689e06135d2b4b4d471f1ae489887b53"
STREAM = (
    b"commit refs/heads/main\ncommitter A <a@x> 1 +0000\ndata 2\nv1\n"
    b"M 100644 inline test.txt\ndata 10\nversion 1\n\ndone\n"
)
LEAKS = ["--leak-check=full", "--errors-for-leak-kinds=all"]
VALGRIND = ["valgrind", "-q", "--error-exitcode=1", *LEAKS]
SANITIZED = ["-fsanitize=address,undefined", "-fno-sanitize-recover=undefined"]
SHOWN = Done(0, b"version 1\n", b"")


def needs(name: str) -> pytest.MarkDecorator:
    return pytest.mark.skipif(shutil.which(name) is None, reason=f"{name} isn't installed")


@pytest.fixture
def compiled(built: Path, tmp_path: Path) -> Callable[..., Path]:
    """Compiles a source with these words of the linker: compiled(SOURCE, WORD..)."""

    def compile_source(source: str, *words: Word) -> Path:
        program = tmp_path / Path(source).stem
        command = [os.environ.get("CC", "cc"), "-std=c99", "-Wall", "-Wextra", "-Werror"]
        command += ["-O1", "-g", "-I", TOP / "include", "-o", program, TOP / source, *words]
        printed(run_program(command, timeout=120), command)
        return program

    return compile_source


def over(library: Path) -> dict[str, dict]:
    """Where the shared library is looked for."""
    return {"env": {**os.environ, "LD_LIBRARY_PATH": str(library)}}


def test_example_in_c_shows_a_file(
    built: Path, compiled: Callable[..., Path], gx: Program, new_store: Callable[..., Path]
) -> None:
    """Of a stream, and of a store of each version."""
    example = compiled("examples/library.c", built / "libginlarch.a")
    assert run_program([example, "main", "test.txt"], STREAM) == SHOWN
    store = new_store(STREAM)
    assert run_program([example, "main", "test.txt"], store.read_bytes()) == SHOWN
    gx.prints("grow", store)
    assert run_program([example, "main", "test.txt"], store.read_bytes()) == SHOWN
    refused = run_program([example, "gone", "test.txt"], STREAM)
    assert (refused.out, refused.err) == (b"", b"refused: UnknownRef\n")


@needs("valgrind")
def test_example_in_c_keeps_nothing(built: Path, compiled: Callable[..., Path]) -> None:
    example = compiled("examples/library.c", "-L", built, "-lginlarch")
    assert run_program([*VALGRIND, example, "main", "test.txt"], STREAM, **over(built)) == SHOWN


def test_calls_at_random_stay_in_bounds(
    built: Path, compiled: Callable[..., Path], seed: int
) -> None:
    fuzz = compiled("tests/library/fuzz.c", *SANITIZED, built / "libginlarch.a")
    words = [fuzz, str(seed), "10000"]
    printed(run_program(words, timeout=300), words)


@needs("valgrind")
def test_calls_at_random_keep_nothing(
    built: Path, compiled: Callable[..., Path], seed: int
) -> None:
    fuzz = compiled("tests/library/fuzz.c", built / "libginlarch.a")
    words = [*VALGRIND, fuzz, str(seed), "1000"]
    printed(run_program(words, timeout=300), words)


def test_each_allocation_may_fail(built: Path, compiled: Callable[..., Path]) -> None:
    wrapped = ["-Wl,--wrap=malloc", "-Wl,--wrap=realloc"]
    memory = compiled("tests/library/memory.c", *SANITIZED, *wrapped, built / "libginlarch.a")
    printed(run_program([memory], timeout=300), [memory])


@needs("cargo")
def test_example_in_rust_lists_refs(built: Path, tmp_path: Path) -> None:
    words = ["cargo", "build", "-q", "--offline", "--target-dir", tmp_path]
    environment = {**os.environ, "RUSTFLAGS": f"-L {built}"}
    printed(run_program(words, env=environment, cwd=TOP / "examples/rust", timeout=300), words)
    done = run_program([tmp_path / "debug/library"], STREAM, **over(built))
    assert (done.status, done.out) == (0, DIGITS + b" refs/heads/main\n")


def test_installed_library_is_found(
    built: Path, compiled: Callable[..., Path], tmp_path: Path
) -> None:
    """By pkg-config(1) and by Python; and all of it goes again."""
    place = tmp_path / "place"
    environment = {**os.environ, "PREFIX": str(place)}
    words = [SCRIPTS / "install.sh", "--library"]
    printed(run_program(words, env=environment), words)
    if shutil.which("pkg-config"):
        asked = {**os.environ, "PKG_CONFIG_PATH": str(place / "lib/pkgconfig")}
        words = ["pkg-config", "--cflags", "--libs", "ginlarch"]
        flags = subprocess.check_output(words, env=asked, text=True)
        example = compiled("examples/library.c", *flags.split())
        assert run_program([example, "main", "test.txt"], STREAM, **over(place / "lib")) == SHOWN
    modules = {**over(place / "lib")["env"], "PYTHONPATH": str(place / "lib/python3/dist-packages")}
    modules.pop("GINLARCH_LIBRARY", None)
    code = "from ginlarch import Repository; assert Repository().refs == {}"
    words = ["python3", "-c", code]
    printed(run_program(words, env={**modules, "PYTHONDONTWRITEBYTECODE": "1"}, cwd="/"), words)
    words = [SCRIPTS / "install.sh", "--library", "--uninstall"]
    printed(run_program(words, env=environment), words)
    assert [path for path in place.rglob("*") if path.is_file()] == []
