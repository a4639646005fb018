"""Examples of the pages: blocks of lines that are indented by four spaces, or the manual's lines
between .nf and .fi.

A line `$ COMMAND` is run by bash, in a folder and a shell of its page; a line `> MORE` goes on with
it. What stands below has to be what it prints; a line `...` is any lines, and where nothing stands
there, anything may be printed. A command that is refused with a line `gx: ..` may end with any
status, and every other one has to end with 0. In Markdown a comment above a block says more of it,
and the manual has such comments, too:

    <!-- file: NAME -->     the block is put into a file of this name
    <!-- needs: PROGRAM --> it is run only where this program is installed
    <!-- not run: WHY -->   it isn't run here
    <!-- at the top of the repository -->  it is run there
"""

from __future__ import annotations

import re
import shutil
import subprocess
from collections.abc import Iterator
from dataclasses import dataclass, field
from pathlib import Path

from programs import counted

END = "\036"
# a line of standard error that tells what was done
REPORT = re.compile(r"gx: (adapt: the stream ended with|[a-zA-Z0-9,: ]+: \d+$)")
PROJECT = """git init -q -b main project && cd project && mkdir doc
for n in 1 2 3 4; do
  echo "Version $n." > README.md && echo $n > doc/$n && git add . && git commit -qm "Say $n"
  test $n != 2 || git tag -m 'First' v1.0
done"""


@dataclass
class Block:
    """The lines of a block, the number of the first one, and the comment above it."""

    first: int
    comment: str
    lines: list[str]

    def commands(self) -> list[tuple[str, list[str]]]:
        """The commands, each with the lines that are shown below it."""
        found: list[tuple[str, list[str]]] = []
        for line in self.lines:
            if line.startswith("$ "):
                found.append((line[2:], []))
            elif line.startswith("> ") and found and not found[-1][1]:
                found[-1] = (f"{found[-1][0]}\n{line[2:]}", [])
            elif found:
                found[-1][1].append(line)
        return found


def blocks_of_markdown(text: str) -> Iterator[Block]:
    lines, at = text.splitlines(), 0
    comment = ""
    while at < len(lines):
        line = lines[at]
        if line.startswith("<!--"):
            comment = line.strip("<!-> ")
        elif line.startswith("    ") and (at == 0 or not lines[at - 1].strip()):
            first, block = at + 1, []
            while at < len(lines) and (line[:4].isspace() or not line):
                block.append(line[4:])
                at += 1
                line = lines[at] if at < len(lines) else "end"
            while not block[-1]:
                block.pop()
            yield Block(first, comment, block)
            comment = ""
            continue
        elif line:
            comment = ""
        at += 1


def blocks_of_manual(text: str) -> Iterator[Block]:
    """The blocks between .nf and .fi, as they are shown."""
    for found in re.finditer(r'(?:^\.\\" ([^\n]*)\n)?^\.nf\n(.*?)^\.fi$', text, re.M | re.S):
        shown = re.sub(r"\\f[BIR]|\\&", "", found.group(2)).replace("\\-", "-")
        for mark, sign in (("\\(ha", "^"), ("\\(ti", "~"), ("\\(aq", "'"), ("\\e", "\\")):
            shown = shown.replace(mark, sign)
        yield Block(
            text.count("\n", 0, found.start(2)) + 1, found.group(1) or "", shown.splitlines()
        )


def is_shown(lines: list[str], printed: str) -> bool:
    """Whether lines are what was printed, a line `...` standing for any lines."""
    parts = [re.escape(line.rstrip()) for line in lines]
    pattern = "\n".join(r"(?:.*\n)*?.*" if part == re.escape("...") else part for part in parts)
    return bool(
        re.fullmatch(pattern, printed.replace("\t", "    ")) or re.fullmatch(pattern, printed)
    )


@dataclass
class Shell:
    """The commands of a page, gathered, and then run in one shell."""

    page: str
    steps: list[tuple[int, str, list[str]]] = field(default_factory=list)
    script: list[str] = field(default_factory=list)
    left_out: list[str] = field(default_factory=list)

    def add(self, first: int, command: str, shown: list[str]) -> None:
        self.steps.append((first, command, shown))
        self.script += [command, f'echo "{END}${{PIPESTATUS[*]}}{END}"']

    def put(self, name: str, block: list[str]) -> None:
        text = "\n".join(block)
        self.script.append(f"cat > {name} <<'THE END'\n{text}\nTHE END\necho -n '{END}0{END}'")
        self.steps.append((0, f"put {name}", []))

    def add_block(self, block: Block) -> None:
        word, _, rest = block.comment.partition(": ")
        missing = [name for name in rest.split() if word == "needs" and not shutil.which(name)]
        if word == "not run" or missing:
            self.left_out += [f"{command} ({rest})" for command, _ in block.commands()]
        elif word == "file":
            self.put(rest, block.lines)
        else:
            if block.comment == "at the top of the repository":
                self.add(block.first, 'cd "$GINLARCH"', [])
            for command, shown in block.commands():
                self.add(block.first, command, shown)

    def faults(self, folder: Path, environment: dict[str, str]) -> list[str]:
        """Runs all, and tells each command that didn't do what the page says."""
        counted["commands of documents"] += len(self.steps)
        (folder / ".script").write_text("\n".join(self.script) + "\n")
        if "project" in "".join(self.script):
            subprocess.run(["bash", "-c", PROJECT], cwd=folder, env=environment, check=True)
        how = {"stdout": subprocess.PIPE, "stderr": subprocess.STDOUT, "stdin": subprocess.DEVNULL}
        done = subprocess.run(["bash", ".script"], cwd=folder, env=environment, timeout=600, **how)
        answers = done.stdout.decode(errors="backslashreplace").split(END)
        found = []
        for (first, command, shown), printed, status in zip(
            self.steps, answers[::2], answers[1::2]
        ):
            if not holds(shown, printed.strip("\n"), status):
                found.append(
                    f"{self.page}:{first}: {command}\n"
                    f"  status {status.strip()}, printed:\n{printed}"
                )
        missing = len(self.steps) - len(answers) // 2
        return found + [f"{self.page}: the shell ended before {missing} commands"] * (missing > 0)


def holds(shown: list[str], printed: str, status: str) -> bool:
    """Whether a command ended as it has to, and printed what is shown."""
    while shown and not shown[-1]:
        shown = shown[:-1]
    refused = any(line.startswith("gx: ") and not REPORT.match(line) for line in shown)
    good = refused or not status.replace("0", "").strip()
    return good and (not shown or is_shown(shown, printed))


def shell_of(page: str, text: str) -> Shell:
    shell = Shell(page)
    for block in blocks_of_markdown(text) if page.endswith(".md") else blocks_of_manual(text):
        shell.add_block(block)
    return shell
