"""The files `tests/cases/*.case`: commands with their replies, and calls of the program.

A file has blocks with a blank line between two. A block begins with a comment and has lines of these forms:

    # What it shows.
    text NAME = a text               $NAME in a later line stands for it, as it is written in a string of JSON
    make NAME = an expression        the same of a text that Python makes; bytes stand for themselves
    > a line of input, as it is
    < the line that answers it
    RUN: a line of `flow history DB RUN`, behind all lines of input
    ! STATUS TEXT                    the status if it isn't 0, and a line on standard error; several where it has several

All runs of each store that a case makes replay, and `flow verify` says how many there are. Each case is driven over memory and over a
file. Over a file it is cut into lives of the program, a short one in every way, so that the store is closed and opened again between any
two of its lines. Both are applied in batches of several sizes: the replies and the histories are always the same.

A block with lines `$ flow WORDS` has calls of the program instead, one after the other in a folder in which its texts are files of their
names. Behind a call stand its input, all that it prints, and its end.
"""
import json
import os
import re
import shlex
import sqlite3
from dataclasses import dataclass, field

from program import flow

BATCHES = [1, 2, 3, 64]
BAD = b'{"code":"E02","reply":"refused"}'
NAME = re.compile(rb"\$([A-Z][A-Z0-9]*)")
HISTORY_LINE = re.compile(r"(\d+): (.*)")
# a case of at most so many lines is cut in every way
SHORT = 5


@dataclass
class Call:
    """The words behind `flow`, the lines of input, those that are printed, the status, and what stands on standard error."""

    words: list
    lines: list = field(default_factory=list)
    printed: list = field(default_factory=list)
    status: int = 0
    says: bytes = b""


@dataclass
class Case:
    """Lines with their replies, the status of them all, and the histories of runs by their numbers; or calls with the files that they read.

    Of a damaged store also the statements that change it, the rows that are found in it, the bytes of a file in its place, and whether it is
    one of the first format.
    """

    what: str
    pairs: list = field(default_factory=list)
    status: int = 0
    histories: dict = field(default_factory=dict)
    calls: list = field(default_factory=list)
    files: dict = field(default_factory=dict)
    statements: list = field(default_factory=list)
    rows: list = field(default_factory=list)
    says: bytes = b""
    verified: tuple = None
    content: bytes | None = None
    old: bool = False


def blocks(path):
    """The blocks of a file, each with the number of its first line."""
    with open(path, encoding="utf-8") as it:
        lines = it.read().split("\n")
    block, first = [], 1
    for at, line in enumerate(lines + [""], 1):
        if line:
            block.append(line)
        else:
            if block:
                yield first, block
            block, first = [], at + 1


def named_in(line, names):
    """A line as bytes, with each `$NAME` in it replaced: a text as it stands in a string of JSON, bytes as they are."""

    def replaced(found):
        value = names[found.group(1).decode()]
        return value if isinstance(value, bytes) else json.dumps(value, ensure_ascii=False)[1:-1].encode()

    return NAME.sub(replaced, line.encode())


def read_case(place, block):
    """The case of a block."""
    case, names, waiting = Case(place), {}, None
    for line in block:
        mark, _, rest = line.partition(" ")
        history = HISTORY_LINE.fullmatch(line)
        if mark == "#":
            case.what += " " + rest
        elif line == "old":
            case.old = True
        elif mark in ("text", "make"):
            name, _, value = rest.partition(" = ")
            names[name] = value if mark == "text" else eval(value, dict(names))
        elif mark == "$":
            words = shlex.split(rest)
            if words[0] != "flow":
                raise ValueError(f"{place}: {line}")
            case.calls.append(Call([named_in(word, names).decode() for word in words[1:]]))
        elif mark == ">" and case.calls:
            case.calls[-1].lines.append(named_in(rest, names))
        elif mark == "<" and case.calls:
            case.calls[-1].printed.append(named_in(rest, names))
        elif mark == ">" and waiting is None:
            waiting = named_in(rest, names)
        elif mark == "<" and waiting is not None:
            case.pairs.append((waiting, named_in(rest, names)))
            waiting = None
        elif mark == "!":
            status, _, says = rest.partition(" ")
            of = case.calls[-1] if case.calls else case
            of.status, of.says = int(status), of.says + ((says + "\n").encode() if says else b"")
        elif mark == "verify":
            status, _, says = rest.partition(" ")
            case.verified = (int(status), b"", (says + "\n").encode())
        elif mark == "file":
            case.content = eval(rest)
        elif mark == "sql":
            case.statements.append(rest)
        elif mark == "=":
            case.rows.append(json.loads(rest))
        elif history:
            case.histories.setdefault(int(history.group(1)), []).append(named_in(history.group(2), names))
        else:
            raise ValueError(f"{place}: {line}")
    if waiting is not None:
        raise ValueError(f"{place}: the last line has no reply")
    if not (case.pairs or case.calls or case.statements or case.histories or case.content is not None):
        raise ValueError(f"{place}: nothing is asked")
    case.files = {name: value if isinstance(value, bytes) else value.encode() for name, value in names.items()} if case.calls else {}
    return case


def read_cases(path):
    name = os.path.basename(path)
    return [read_case(f"{name}:{first}", block) for first, block in blocks(path)]


def joined(lines):
    return b"".join(line + b"\n" for line in lines)


def outcome(pairs):
    """What a life of the program that is given these lines ends with."""
    replies = [reply for _, reply in pairs]
    return (1 if BAD in replies else 0, joined(replies), b"")


def cuts(pairs):
    """Every way to cut a list into parts that aren't empty."""
    if not pairs:
        yield []
    for size in range(1, len(pairs) + 1):
        for rest in cuts(pairs[size:]):
            yield [pairs[:size]] + rest


def lives(pairs):
    """Every way to cut a short list; a longer one whole, in two at every place, and each line by itself."""
    if len(pairs) <= SHORT:
        yield from cuts(pairs)
    else:
        yield [pairs]
        for at in range(1, len(pairs)):
            yield [pairs[:at], pairs[at:]]
        yield [[pair] for pair in pairs]


def sizes(parts):
    """The sizes of batches that differ for these lives: a batch is no longer than the life that it stands in."""
    longest = max(map(len, parts), default=0)
    return [size for at, size in enumerate(BATCHES) if at == 0 or BATCHES[at - 1] < longest]


def history_reply(history):
    """The reply that has the events of a run, which `flow history` prints as lines."""
    events = b",".join(b'[%s,"%s",%s]' % tuple(line.split(b" ", 2)) for line in history)
    return b'{"events":[%s],"reply":"history"}' % events


def asked(case):
    """The lines, and behind them a question for each history, since a store in memory ends with the program."""
    return case.pairs + [(b'{"do":"history","run":%d}' % run, history_reply(history)) for run, history in case.histories.items()]


def over_memory(tally, case):
    pairs = asked(case)
    lines, wanted = joined(line for line, _ in pairs), outcome(pairs)
    tally.check(f"{case.what}: its status", wanted[0], case.status)
    for size in BATCHES:
        tally.check(f"{case.what}, over memory in batches of {size}", flow(["drive", "-", "--batch", str(size)], lines), wanted)
    tally.check(f"{case.what}, where one position is kept", flow(["drive", "-", "--cache", "1"], lines), wanted)
    tally.check(f"{case.what}, without the last line feed", flow(["drive", "-"], lines[:-1]), wanted)


def check_histories(tally, what, base, histories):
    for run, history in histories.items():
        tally.check(f"{what}, history of {run}", flow(["history", base, str(run)]), (0, joined(history), b""))


def totals(base):
    """What `flow verify` says of a store whose runs all replay, counted by SQLite."""
    conn = sqlite3.connect(base)
    try:
        counts = [conn.execute(f"SELECT count(*) FROM {table}").fetchone()[0] for table in ("text", "run", "event2")]
    finally:
        conn.close()
    return (0, b"ok texts=%d runs=%d events=%d\n" % tuple(counts), b"")


def check_verified(tally, what, base, wanted=None):
    tally.check(f"{what}, verified", flow(["verify", base]), wanted or totals(base))


def over_a_file(tally, case, parts, size, base):
    what = f"{case.what}, over a file in lives of {[len(part) for part in parts]} lines and batches of {size}"
    for part in parts:
        tally.check(what, flow(["drive", base, "--batch", str(size)], joined(line for line, _ in part)), outcome(part))
    check_histories(tally, what, base, case.histories)
    check_verified(tally, what, base)
    for left in (base, base + "-wal"):
        if os.path.exists(left):
            os.remove(left)


def called(tally, case, folder):
    os.mkdir(folder)
    for name, content in case.files.items():
        with open(os.path.join(folder, name), "wb") as it:
            it.write(content)
    for call in case.calls:
        wanted = (call.status, joined(call.printed), call.says)
        tally.check(f"{case.what}, {call.words}", flow(call.words, joined(call.lines), folder=folder), wanted)


def jobs(tally, paths, folder):
    """What is to be done for these files, each a call without arguments that may run beside the others."""
    number = 0
    for path in paths:
        for case in read_cases(path):
            if case.calls:
                number += 1
                yield lambda case=case, at=os.path.join(folder, f"called{number}"): called(tally, case, at)
                continue
            yield lambda case=case: over_memory(tally, case)
            for parts in lives(case.pairs):
                for size in sizes(parts):
                    number += 1
                    base = os.path.join(folder, f"{number}.db")
                    yield lambda case=case, parts=parts, size=size, base=base: over_a_file(tally, case, parts, size, base)
