"""Stores that the scripts measure, made of rows, and lives of the program over them.

A store is made by copying the rows of a run that `flow` itself has made, through the C library's SQLite, so that making it doesn't cost
what is measured."""
import json
import os
import sqlite3
import subprocess
import tempfile
import time

HERE = os.path.dirname(os.path.dirname(os.path.realpath(__file__)))
FLOW = os.environ.get("FLOW", os.path.join(HERE, "crates/flow/out/flow"))

# A run that ends with its first report, and one that waits for a signal.
SMALL = 'workflow a(n: int) { activity c(int, text) -> int; let r = 0; r = call c(n, "eur"); return r + 1; }'
WAITS = "workflow w(n: int) { signal s: int; let r = 0; r = wait signal s; return r + n; }"
# The tables with rows of a run, each with the column that names it.
COLUMNS = {"run": "num", "event2": "run", "timer": "run", "outbox": "run"}
NUMBERS = "WITH RECURSIVE numbers(n) AS (SELECT 2 WHERE ?1 >= 2 UNION ALL SELECT n + 1 FROM numbers WHERE n < ?1)"


def register(text):
    return {"do": "register", "src": text}


def start(name, argument=1, text=1):
    return {"args": [argument], "at": 1000, "do": "start", "flow": f"f{name}", "req": f"q{name}", "text": text}


def report(run, event):
    return {"at": 1500, "attempt": 1, "do": "complete", "event": event, "run": run, "value": 1}


def life(base, commands, batch=1, cache=256):
    """A life of the program over a store: its processor time in seconds, and the most memory that it held in bytes."""
    given = "".join(json.dumps(c) + "\n" for c in commands).encode()
    with tempfile.TemporaryFile() as lines, tempfile.TemporaryFile() as replies:
        lines.write(given)
        lines.seek(0)
        took, held = ended(subprocess.Popen([FLOW, "drive", base, "--batch", str(batch), "--cache", str(cache)], stdin=lines, stdout=replies))
        replies.seek(0)
        told = replies.read()
    if told.count(b"\n") != len(commands) or b"refused" in told or b"not applied" in told:
        raise SystemExit(f"{told[-200:]!r}")
    return took, held


def asked(it, command):
    """Hands one line in to a program that runs, and takes its reply."""
    it.stdin.write(json.dumps(command).encode() + b"\n")
    it.stdin.flush()
    told = it.stdout.readline()
    if not told or b"refused" in told or b"not applied" in told:
        raise SystemExit(f"{command}: {told!r}")


def ended(it):
    """Waits for a program: its processor time in seconds, and the most memory that it held in bytes."""
    _, status, used = os.wait4(it.pid, 0)
    it.returncode = os.waitstatus_to_exitcode(status)
    if it.returncode != 0:
        raise SystemExit(f"{it.args}: status {it.returncode}")
    return used.ru_utime + used.ru_stime, used.ru_maxrss * 1024


def processor_time(it):
    """What a program that runs has taken, in seconds, by the clock of its number."""
    return time.clock_gettime((~it.pid << 3) | 2)


def memory(it, name):
    """What the system says of a program's memory, in bytes: `VmHWM` is the most, `VmRSS` what it holds."""
    with open(f"/proc/{it.pid}/status", encoding="ascii") as status:
        return next(int(line.split()[1]) * 1024 for line in status if line.startswith(name))


def removed(base):
    """Removes a store, with what stands beside it."""
    for beside in ("-wal", "-shm", ""):
        if os.path.exists(base + beside):
            os.remove(base + beside)


def fresh(folder, name, commands):
    base = os.path.join(folder, name)
    life(base, commands, 64)
    return base


def copied(base, copies, order="n, id"):
    """Gives a store so many copies of its run 1, with numbers, flows and requests of their own. Their rows come in the order that is
    named: those of a run side by side, or, by `id, n`, far apart."""
    conn = sqlite3.connect(base)
    with conn:
        for table, column in COLUMNS.items():
            names = [row[1] for row in conn.execute(f"PRAGMA table_info({table})")]
            new = {column: "n", "flow": "'copy' || n", "req": "'copy' || n"} if table == "run" else {column: "n"}
            values = ", ".join(new.get(name, name) for name in names)
            by = "n" if table == "run" else order
            conn.execute(f"INSERT INTO {table} {NUMBERS} SELECT {values} FROM numbers, {table} WHERE {column} = 1 ORDER BY {by}", [copies + 1])
    conn.close()
    return base
