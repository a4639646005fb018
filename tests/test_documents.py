"""What the manual, the completions and README.md say of commands is compared with the program's own
help.
"""

from __future__ import annotations

import sys

from programs import SCRIPTS, run_program


def test_commands(environment: dict[str, str]) -> None:
    done = run_program([sys.executable, SCRIPTS / "commands.py", "--check"], env=environment)
    assert done.status == 0, (done.out + done.err).decode()
