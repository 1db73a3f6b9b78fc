"""The files `tests/cases/*.damage` and `*.bodies`: stores that are changed by SQLite, and what their opening then says.

A `.damage` file has blocks as a `.case` file. One with lines and replies makes a sound store; each later one is about a copy of it:

    file EXPRESSION                  the bytes of a file, as Python makes them, in place of the copy
    old                              the copy is a store of the first format, which its opening moves
    sql STATEMENT                    changes the copy
    ! STATUS TEXT                    what its opening says, if it is refused. It changes nothing then, nor is it moved
    verify STATUS TEXT               what `flow verify` says, if it is opened and a run doesn't replay. Else it says how much the copy holds,
                                     and of one that isn't opened the same as the opening
    RUN: a line of its history, if it is opened
    = [a row]                        the rows that the one statement, a SELECT, gives
    > a line of input and < the line that answers it, over the changed copy, each in a life of its own. Tables of other names keep
                                     their rows

A `.bodies` file has a JSON object a line: the `kind`, the moment `at` and the `body` of an event (or `make`, an expression of Python), which
takes the place of one of a run that is closed, and what its reading `says`: ok, and the history has that body with the moment in it, or the code
of its refusal. Without `at` it is one of the first format, whose bodies have their moments, and one that is read is moved.
"""
import json
import os
import shutil
import sqlite3

import formats
from lines import blocks, check_verified, joined, outcome, read_case
from program import flow

# the run of one activity whose history is: started, scheduled, completed, and its end
CLOSED = [
    (
        b'{"do":"register","src":"workflow a(n: int) { activity c(int, text) -> int; let r = 0; r = call c(n, \\"eur\\"); return r + 1; }"}',
        b'{"reply":"registered","text":1}',
    ),
    (b'{"args":[7],"at":1000,"do":"start","flow":"f","req":"q1","text":1}', b'{"reply":"started","run":1}'),
    (b'{"at":1500,"attempt":1,"do":"complete","event":2,"run":1,"value":41}', b'{"event":3,"reply":"recorded","run":1}'),
]


OURS = {"meta", "text", "run", "event", "event2", "timer", "outbox"}


def contents(base):
    """The rows of each table."""
    conn = sqlite3.connect(base)
    try:
        names = [name for (name,) in conn.execute("SELECT name FROM sqlite_schema WHERE type = 'table' ORDER BY name")]
        return {name: sorted(conn.execute(f"SELECT * FROM {name}").fetchall()) for name in names}
    finally:
        conn.close()


def held(base):
    """The rows of a store, or the bytes of a file that is none."""
    try:
        return contents(base)
    except sqlite3.DatabaseError:
        with open(base, "rb") as it:
            return it.read()


def of_others(base):
    return {name: rows for name, rows in contents(base).items() if name not in OURS}


def changed(base, statements):
    conn = sqlite3.connect(base)
    try:
        for statement, values in statements:
            conn.execute(statement, values)
        conn.commit()
    finally:
        conn.close()


def made(tally, what, pairs, base):
    """A store behind these lines."""
    tally.check(f"{what}, the store", flow(["drive", base], joined(line for line, _ in pairs)), outcome(pairs))
    check_verified(tally, what, base)


def placed(case, sound, base):
    """The file that a case is about, before it is changed."""
    if case.content is None:
        (formats.first if case.old else copied)(sound, base)
    else:
        with open(base, "wb") as it:
            it.write(case.content)


def copied(base, to):
    for end in ("", "-wal"):
        if os.path.exists(base + end):
            shutil.copy(base + end, to + end)


def opened(tally, what, base, statements, status, says, histories=None, is_old=False):
    """What is said of a store that is changed so, and that its rows stay as they are, or one of the first format is moved."""
    if statements:
        changed(base, statements)
    before = held(base)
    for words in (["drive", base], ["history", base, "1"]):
        ended = flow(words)
        tally.check(f"{what}, {words[0]}", (ended[0], ended[2]), (status, says))
    for run, history in (histories or {}).items():
        tally.check(f"{what}, history of {run}", flow(["history", base, str(run)]), (0, joined(history), b""))
    tally.check(f"{what}, its rows", held(base), formats.moved(before) if is_old and status == 0 else before)


def verified(tally, case, base):
    """What `flow verify` says of the changed store, and that its rows stay as they are."""
    before = held(base)
    check_verified(tally, case.what, base, (case.status, b"", case.says) if case.status else case.verified)
    tally.check(f"{case.what}, its rows after that", held(base), before)


def found(base, statement):
    conn = sqlite3.connect(base)
    try:
        return [list(row) for row in conn.execute(statement)]
    finally:
        conn.close()


def damage(tally, case, sound, base):
    placed(case, sound, base)
    if case.rows:
        tally.check(case.what, found(base, *case.statements), case.rows)
        return
    statements = [(text, {}) for text in case.statements]
    if not case.pairs:
        opened(tally, case.what, base, statements, case.status, case.says, case.histories, case.old)
        verified(tally, case, base)
        return
    changed(base, statements)
    others = of_others(base)
    for pair in case.pairs:
        tally.check(case.what, flow(["drive", base], joined(pair[:1])), outcome([pair]))
    check_verified(tally, case.what, base, case.verified)
    tally.check(f"{case.what}, the rows of others", of_others(base), others)


def body(tally, what, row, sound, base):
    """Of a row that is read, its line of the history is the body again."""
    is_old = "at" not in row
    (formats.first if is_old else copied)(sound, base)
    text = eval(row["make"]) if "make" in row else row["body"]
    event = 1 if row["kind"] == 1 else 3
    statements = [("UPDATE event SET kind = ?, body = ? WHERE id = ?", (row["kind"], text, event))]
    if not is_old:
        statements = [("UPDATE event2 SET kind = ?, at = ?, body = ? WHERE id = ?", (row["kind"], row["at"], text, event))]
    if row["says"] != "ok":
        opened(tally, what, base, statements, 3, f"flow: E83 event 1 {event} {row['says']}\n".encode())
        return
    opened(tally, what, base, statements, 0, b"", is_old=is_old)
    shown = text if is_old else formats.with_moment(row["at"], text)
    lines = flow(["history", base, "1"])[1].decode().splitlines()
    tally.check(f"{what}, its line", [line.split(" ", 2)[2] for line in lines if line.startswith(f"{event} ")], [shown])


def jobs(tally, paths, folder):
    """What is to be done for these files, once their sound stores are made."""
    for path in paths:
        name = os.path.basename(path)
        base = os.path.join(folder, name)
        if path.endswith(".bodies"):
            made(tally, name, CLOSED, base + ".db")
            with open(path, encoding="utf-8") as it:
                rows = it.read().splitlines()
            for at, line in enumerate(rows, 1):
                row = json.loads(line)
                to = f"{base}.{at}.db"
                yield lambda what=f"{name}:{at}", row=row, sound=base + ".db", to=to: body(tally, what, row, sound, to)
            continue
        sound = None
        for first, block in blocks(path):
            case = read_case(f"{name}:{first}", block)
            to = f"{base}.{first}.db"
            if case.pairs and not case.statements and case.content is None:
                sound = to
                made(tally, case.what, case.pairs, sound)
            else:
                yield lambda case=case, sound=sound, to=to: damage(tally, case, sound, to)
