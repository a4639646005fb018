#!/usr/bin/env python3
"""Makes the tables of docs/BENCHMARKS.md from what bench/all.sh measured: docs/speed.tsv, its output.

    scripts/speed.py           writes the tables, between their two marks
    scripts/speed.py --check   ends with 1 where they aren't what it would write
    scripts/speed.py --goals   prints each goal of speed and memory with what was measured, and ends
                               with 1 where one is missed
    scripts/speed.py --beside OLD [NEW]
                               prints of each row of gx in two such files what it takes in NEW, in
                               times of what it took in OLD; NEW is docs/speed.tsv if it is left out

Rows can be compared where one machine measured both files in one run, or in turn.
"""

import sys
from pathlib import Path

TOP = Path(__file__).resolve().parent.parent
DOCS = TOP / "docs"
PAGE = DOCS / "BENCHMARKS.md"
FIRST, LAST = "<!-- the tables of scripts/speed.py -->", "<!-- their end -->"

OURS = "gx"
LIMITS = ("sha1sum", "written once", "hashed by the kit")
PLAIN, QUICK = "git fast-import", "git fast-import, compression 0"
FSCK, INDEX, EXPORT = "git fsck --full", "git index-pack --strict", "git fast-export --full-tree --all"
BESIDE = {"ls": "git ls-tree -r", "log": "git rev-list", "show": "git cat-file"}


def measured(file=DOCS / "speed.tsv"):
    """What stands before the table, and its rows, of which the last counts where one was measured again."""
    notes, found, names = [], {}, None
    for line in Path(file).read_text().splitlines():
        if line.startswith("#"):
            notes.append(line.lstrip("# "))
        elif line.startswith("stream\t"):
            names = line.split("\t")
        elif line:
            row = dict(zip(names, line.split("\t"), strict=True))
            found[row["stream"], row["command"], row["program"]] = row
    rows = list(found.values())
    for row in rows:
        for name in ("seconds", "processor", "megabytes"):
            row[name] = float(row[name])
        for name in ("commits", "runs", "bytes"):
            row[name] = int(row[name])
    return notes, rows


def groups(rows):
    """The rows of each stream and command, in their order, by program."""
    found = {}
    for row in rows:
        found.setdefault((row["stream"], row["command"]), {})[row["program"]] = row
    return found


# ---- the tables


def with_commas(number):
    return f"{number:,}"


def stream_words(stream):
    kind, *numbers = stream.split(" ")
    return " ".join([kind] + [with_commas(int(number)) if number.isdigit() else number for number in numbers])


def seconds(value):
    return f"{value:.3f} s" if value < 0.1 else f"{value:.2f} s" if value < 100 else f"{value:.0f} s"


def megabytes(value):
    return f"{value:.1f} MB" if value < 10 else f"{with_commas(round(value))} MB"


def limit_of(command, found):
    """The seconds of hashing the same bytes, and of writing them where the command does."""
    hashing = found.get("hashed by the kit") or found.get("sha1sum")
    writing = found.get("written once")
    return sum(row["seconds"] for row in (hashing, writing) if row)


def store_sizes(rows):
    return {row["stream"]: row["bytes"] for row in rows if row["program"] == OURS and row["command"] in ("import", "open")}


def times(row, ours):
    """Another program's wall time, and how many times that of gx it is."""
    return f"{seconds(row['seconds'])} ({row['seconds'] / ours['seconds']:.1f})" if row else ""


def table_of(rows, command, others, limit):
    """A table of one command: each stream with gx, other programs, and the bound."""
    heads = ["Stream", "`gx`", "memory", *(f"`{name.split(',')[0]}`{','.join([''] + name.split(',')[1:])}" for name in others), limit]
    text = ["| " + " | ".join(heads) + " |", "|---" * len(heads) + "|"]
    for (stream, its), found in groups(rows).items():
        ours = found.get(OURS)
        if its == command and ours:
            bound = limit_of(command, found)
            cells = [stream_words(stream), seconds(ours["seconds"]), megabytes(ours["megabytes"])]
            cells += [times(found.get(name), ours) for name in others]
            text.append("| " + " | ".join([*cells, seconds(bound) if bound else ""]) + " |")
    return text


def beside(rows):
    """What the commands that read a store take, beside opening it."""
    found, names = groups(rows), list(BESIDE)
    text = ["| Stream | opening | " + " | ".join(f"`{name}`, `{git}`" for name, git in BESIDE.items()) + " |"]
    text.append("|---" * (len(names) + 2) + "|")
    for stream in dict.fromkeys(row["stream"] for row in rows):
        parts = [found.get((stream, name), {}) for name in names]
        if all(OURS in part and BESIDE[name] in part for name, part in zip(names, parts)):
            cells = [f"{seconds(part[OURS]['seconds'])}, {seconds(part[BESIDE[name]]['seconds'])}" for name, part in zip(names, parts)]
            opened = seconds(found[stream, "open"][OURS]["seconds"])
            text.append("| " + " | ".join([stream_words(stream), opened, *cells]) + " |")
    return text


def steady(rows, program):
    """The commits and the seconds of the imports of steady histories, from the smallest up."""
    found = {row["commits"]: row["seconds"] for row in rows if row["stream"].startswith("steady ") and row["command"] == "import" and row["program"] == program}
    return sorted(found.items())


def each_commit(rows):
    """The milliseconds of a steady commit beyond the first, by how many there are."""
    points = steady(rows, OURS)
    first = points[0][1] if points and points[0][0] <= 1 else 0
    return [(count, (wall - first) * 1000 / (count - 1)) for count, wall in points if count > 1]


def tables(rows):
    each = each_commit(rows)
    few, many = each[0], each[-1]
    slope = f"A steady commit costs {few[1]:.3f} ms among {with_commas(few[0])} and {many[1]:.3f} ms among {with_commas(many[0])}."
    return [
        "Imports, and how many times that of gx git's time is. The bound is hashing and writing once:",
        "",
        *table_of(rows, "import", [QUICK, PLAIN], "bound"),
        "",
        slope,
        "",
        "Opening a store, which is the least that a command on it takes:",
        "",
        *table_of(rows, "open", [FSCK, INDEX], "hashed"),
        "",
        "Exports:",
        "",
        *table_of(rows, "export", [EXPORT], "written"),
        "",
        "Commands on a store, gx and git:",
        "",
        *beside(rows),
    ]


# ---- the goals


MANY = 10000
MOST_OF_HASHING = {"import": 1.7, "open": 1.5}
BOUND_OF_HASHING = {"import": "hashing and writing once", "open": "hashing once"}
MOST_OF_STORE, LEAST_MEGABYTES = 1.15, 10


def kind_and_commits(stream):
    """A stream's kind, and how many commits its words say that it has."""
    kind, *numbers = stream.split(" ")
    return kind, int(numbers[-1]) if numbers and numbers[-1].isdigit() else 0


def least_of(stream, command):
    """A program of git's with how many times as long as gx it is to take at least, or nothing."""
    kind, commits = kind_and_commits(stream)
    if command == "import" and (kind == "forks" or kind in ("steady", "history") and commits <= MANY):
        return QUICK, 8
    if command == "open":
        return FSCK, 3 if kind == "forks" else 4
    if command == "export" and kind in ("steady", "history", "forks") and commits >= MANY:
        return EXPORT, 30
    return None


def goals_of_one(command, stream, programs, ours, bytes_of_store):
    """The goals of one command on one stream."""
    wanted = least_of(stream, command)
    if wanted and wanted[0] in programs:
        yield f"{wanted[0]} by gx", programs[wanted[0]]["seconds"] / ours["seconds"], wanted[1], True
    if command in MOST_OF_HASHING:
        yield f"gx by {BOUND_OF_HASHING[command]}", ours["seconds"] / limit_of(command, programs), MOST_OF_HASHING[command], False
    if bytes_of_store and bytes_of_store >= LEAST_MEGABYTES * 1048576:
        yield "memory by the store's bytes", ours["megabytes"] * 1048576 / bytes_of_store, MOST_OF_STORE, False


def goals(rows):
    """What is asked for, as a value that is to be at least or at most a bound. A stream of one commit takes too little to be measured."""
    sizes, found = store_sizes(rows), groups(rows)
    for (stream, command), programs in found.items():
        ours = programs.get(OURS)
        if not ours or stream == "steady 0":
            continue
        for words, *goal in goals_of_one(command, stream, programs, ours, sizes.get(stream)):
            yield f"{stream_words(stream)}, {command}: {words}", *goal
        if command in BESIDE and (stream, "open") in found and BESIDE[command] in programs:
            both = found[stream, "open"][OURS]["seconds"] + programs[BESIDE[command]]["seconds"]
            yield f"{stream_words(stream)}, {command}: gx by opening and git's own", ours["seconds"] / both, 1, False
    each = each_commit(rows)
    if len(each) > 1:
        yield f"steady, import: a commit among {with_commas(each[-1][0])} by one among {with_commas(each[0][0])}", each[-1][1] / each[0][1], 1.15, False


def tell_goals(rows):
    missed = count = 0
    for words, value, bound, is_least in goals(rows):
        holds = value >= bound if is_least else value <= bound
        missed += not holds
        count += 1
        print(f"{'      ' if holds else 'MISSED'} {words}: {value:.2f}, {'at least' if is_least else 'at most'} {bound}")
    print(f"{count} goals, {missed} missed")
    return missed


# ---- two files


def tell_beside(old, new):
    """What gx takes in new rows by what it took in the old ones: wall time, processor time and memory."""
    before = {(row["stream"], row["command"]): row for row in old if row["program"] == OURS}
    print(f"{'stream':24} {'command':10} {'wall':>6} {'old':>9} {'new':>9} {'processor':>9} {'memory':>7}")
    for row in new:
        was = before.get((row["stream"], row["command"])) if row["program"] == OURS else None
        if was:
            wall, processor, memory = (row[name] / max(was[name], 0.001) for name in ("seconds", "processor", "megabytes"))
            print(
                f"{stream_words(row['stream']):24} {row['command']:10} {wall:6.2f} {was['seconds']:7.3f} s {row['seconds']:7.3f} s {processor:9.2f} {memory:7.2f}"
            )


def page(notes, rows):
    old = PAGE.read_text()
    if old.count(FIRST) != 1 or old.count(LAST) != 1:
        sys.exit(f"docs/BENCHMARKS.md has not one line {FIRST} and one line {LAST}")
    front, rest = old.split(FIRST)
    lines = ["", f"{notes[0]}.", "", *tables(rows), ""]
    return front + FIRST + "\n".join(lines) + "\n" + LAST + rest.split(LAST)[1]


def main():
    if "--beside" in sys.argv[1:]:
        old, new = (measured(file)[1] for file in [*sys.argv[2:], DOCS / "speed.tsv"][:2])
        tell_beside(old, new)
        return
    if not (DOCS / "speed.tsv").exists():
        sys.exit("docs/speed.tsv isn't there: it is what bench/all.sh prints")
    notes, rows = measured()
    if "--goals" in sys.argv[1:]:
        sys.exit(1 if tell_goals(rows) else 0)
    made = page(notes, rows)
    if "--check" not in sys.argv[1:]:
        PAGE.write_text(made)
    elif PAGE.read_text() != made:
        sys.exit("docs/BENCHMARKS.md hasn't the tables that scripts/speed.py makes of docs/speed.tsv")


if __name__ == "__main__":
    main()
