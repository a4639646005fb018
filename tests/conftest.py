"""What the tests share: options, the program, git without settings, and stores in folders of their
own.
"""

from __future__ import annotations

import os
import random
import shlex
import shutil
import sys
import tempfile
from collections import Counter
from collections.abc import Callable, Iterator
from contextlib import contextmanager
from pathlib import Path

import pytest
from hypothesis import HealthCheck, settings

from programs import SCRIPTS, TOP, Program, Word, counted, printed, run_program
from store_files import StoreFile

# where the program may stand, the first one that does: proved, and made without proofs
BUILT = (TOP / "crates/gx/out/gx", TOP / "out/try/gx")
WHO = {"NAME": "A", "EMAIL": "a@x", "DATE": "@1 +0000"}
# runs a program, and has its `init` make a growing store
MAKES_GROWING = """#!/bin/bash
words=("$@")
[[ $1 == --explain ]] && at=1 || at=0
[[ ${words[at]} != init || ${words[at+1]} == --growing ]] || words=("${words[@]:0:at}" init --growing "${words[@]:at+1}")
exec PROGRAM "${words[@]}"
"""

everything = {"database": None, "deadline": None, "suppress_health_check": list(HealthCheck)}
settings.register_profile("quick", max_examples=2, derandomize=True, **everything)
settings.register_profile("long", max_examples=100, print_blob=True, **everything)


def pytest_addoption(parser: pytest.Parser) -> None:
    group = parser.getgroup("ginlarch")
    group.addoption(
        "--gx", metavar="PROGRAM", help="the program to try, in place of GX or the built one"
    )
    group.addoption("--seed", type=int, help="begin random histories here, in place of 1")
    group.addoption(
        "--session", metavar="FILE", action="append", default=[], help="a file of sessions to run"
    )
    group.addoption(
        "--stream", metavar="FILE", action="append", default=[], help="a stream to compare with git"
    )
    group.addoption(
        "--long", action="store_true", help="run what is marked long, and longer histories"
    )
    group.addoption(
        "--ledger", metavar="FILE", type=Path, help="note there what calls failed, and go on behind"
    )
    group.addoption("--fault", metavar="TEXT", help="have that call fail alone")
    group.addoption(
        "--growing", action="store_true", help="have `gx init` make growing stores in tests"
    )


def pytest_configure(config: pytest.Config) -> None:
    # scripts run by the Python that runs the tests
    os.environ["PATH"] = f"{Path(sys.executable).parent}:{os.environ['PATH']}"
    config.addinivalue_line(
        "markers", "quick: run by `make test` and by the gate, as all that isn't long"
    )
    config.addinivalue_line("markers", "long: run only with --long")
    if config.getoption("hypothesis_profile", None) is None:
        settings.load_profile("long" if config.getoption("long") else "quick")
    seed = config.getoption("seed")
    if seed is not None and config.getoption("hypothesis_seed", None) is None:
        config.option.hypothesis_seed = str(seed)
        settings.register_profile("seeded", settings(), derandomize=False)
        settings.load_profile("seeded")


def pytest_collection_modifyitems(config: pytest.Config, items: list[pytest.Item]) -> None:
    if config.getoption("long"):
        return
    for item in items:
        if item.get_closest_marker("long"):
            item.add_marker(pytest.mark.skip(reason="long: run with --long"))


@contextmanager
def noted(item: pytest.Item) -> Iterator[None]:
    """Notes what a test does meanwhile."""
    before = counted.copy()
    yield
    item.user_properties += (counted - before).items()


@pytest.hookimpl(hookwrapper=True)
def pytest_runtest_setup(item: pytest.Item) -> Iterator[None]:
    with noted(item):
        yield


@pytest.hookimpl(hookwrapper=True)
def pytest_runtest_call(item: pytest.Item) -> Iterator[None]:
    with noted(item):
        yield


def pytest_terminal_summary(terminalreporter) -> None:
    """Tells how much the tests did."""
    reports = [report for some in terminalreporter.stats.values() for report in some]
    sums: Counter[str] = Counter()
    for report in reports:
        if getattr(report, "when", None) == "call":
            for name, count in report.user_properties:
                sums[name] += count
    for name, count in sorted(sums.items()):
        terminalreporter.write_line(f"{name}: {count}")


def program_path(config: pytest.Config) -> Path:
    """The program that the options, GX or the builds name."""
    named = config.getoption("gx") or os.environ.get("GX")
    if named:
        path = Path(named).resolve()
    else:
        path = next((built for built in BUILT if built.exists()), BUILT[0])
    if not os.access(path, os.X_OK):
        pytest.exit(f"no program {path}: make one by `make try`, or name one by --gx or GX", 2)
    return path


@pytest.fixture(scope="session")
def gx_path(request: pytest.FixtureRequest, tmp_path_factory: pytest.TempPathFactory) -> Path:
    path = program_path(request.config)
    if not request.config.getoption("growing"):
        return path
    maker = tmp_path_factory.mktemp("growing") / "gx"
    maker.write_text(MAKES_GROWING.replace("PROGRAM", shlex.quote(str(path))))
    maker.chmod(0o755)
    return maker


@pytest.fixture(scope="session")
def environment(gx_path: Path, tmp_path_factory: pytest.TempPathFactory) -> dict[str, str]:
    """gx and its scripts in PATH, no settings of git, and fixed identities and times."""
    home = tmp_path_factory.mktemp("home")
    commands = home / "bin"
    commands.mkdir()
    (commands / "gx").symlink_to(gx_path)
    for name in ("git-remote-gx", "gx-mirror", "git-objects"):
        (commands / name).symlink_to(SCRIPTS / name)
    who = {
        f"GIT_{side}_{what}": value
        for side in ("AUTHOR", "COMMITTER")
        for what, value in WHO.items()
    }
    return {
        **who,
        "GIT_CONFIG_NOSYSTEM": "1",
        "GX": str(gx_path),
        "HOME": str(home),
        "LC_ALL": "C.UTF-8",
        "PATH": f"{commands}:{os.environ['PATH']}",
        "TZ": "UTC",
    }


@pytest.fixture(scope="session")
def gx(gx_path: Path, environment: dict[str, str]) -> Program:
    return Program(gx_path, environment)


@pytest.fixture(scope="session")
def git(environment: dict[str, str]) -> Callable[..., bytes]:
    """What a command of git prints that has to end with 0: git(WORD.., cwd=PATH, stdin=BYTES)."""

    def run(*words: Word, stdin: bytes = b"", **more) -> bytes:
        done = run_program(["git", *words], stdin, **{"env": environment, **more})
        return printed(done, ["git", *words])

    return run


@pytest.fixture
def tmp_path() -> Iterator[Path]:
    """A folder of the test's own, which goes with it, since stores may be large.

    Other users may pass through it.
    """
    with tempfile.TemporaryDirectory(prefix="gx-test-", ignore_cleanup_errors=True) as name:
        folder = Path(name)
        folder.chmod(0o755)
        yield folder


@pytest.fixture
def new_store(gx: Program, tmp_path: Path) -> Callable[..., Path]:
    """Makes a store in the test's folder, of a stream: new_store(STREAM, NAME)."""

    def make(stream: bytes = b"", name: str = "store") -> Path:
        path = tmp_path / name
        gx.prints("init", path)
        if stream:
            gx.prints("import", path, stdin=stream)
        return path

    return make


@pytest.fixture(scope="session")
def seed(request: pytest.FixtureRequest) -> int:
    """Where random choices begin."""
    return request.config.getoption("seed") or 1


@pytest.fixture
def randoms(seed: int) -> random.Random:
    return random.Random(seed)


@pytest.fixture(scope="session")
def gx_of_all(gx_path: Path) -> Iterator[Path]:
    """A copy of the program that other users may run, too."""
    with tempfile.TemporaryDirectory(prefix="gx-of-all-") as name:
        folder = Path(name)
        folder.chmod(0o755)
        shutil.copy(gx_path, folder / "gx")
        (folder / "gx").chmod(0o755)
        yield folder / "gx"


@pytest.fixture
def store(gx_of_all: Path, tmp_path: Path) -> StoreFile:
    """A store of version 1 with one commit, in a folder of its own."""
    return StoreFile(gx_of_all, tmp_path / "folder")
