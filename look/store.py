"""The store that a page shows: a copy of its two files, what the program says of them, and its rows by the tables of docs/FORMATS.md."""
import contextlib
import enum
import fcntl
import json
import os
import re
import shutil
import sqlite3
import subprocess
from dataclasses import dataclass, field

from look.texts import text_of

Kind = enum.IntEnum(
    "Kind",
    "WorkflowExecutionStarted WorkflowExecutionSignaled ActivityTaskCompleted ActivityTaskFailed TimerFired WorkflowExecutionTerminated"
    " ActivityTaskScheduled TimerStarted TimerCanceled MarkerRecorded WorkflowExecutionCompleted WorkflowExecutionFailed"
    " WorkflowExecutionContinuedAsNew",
)
# The state of a run by the event that has closed it.
ENDS = {
    Kind.WorkflowExecutionCompleted: "completed",
    Kind.WorkflowExecutionFailed: "failed",
    Kind.WorkflowExecutionContinuedAsNew: "continued",
    Kind.WorkflowExecutionTerminated: "terminated",
}
# The bytes of a file that SQLite locks for those who read, how many and from which on. A program that has the file open holds them alone.
READING = (510, 0x40000002)
FAULT = re.compile(r"^flow: E\d+.*", re.MULTILINE | re.DOTALL)


class Refused(Exception):
    """Why nothing is shown of a store."""


@dataclass
class Event:
    number: int
    kind: Kind
    body: dict
    row: str

    @property
    def at(self):
        return self.body["at"]


@dataclass
class Task:
    """An open activity: the body of the event that scheduled it, which attempt is due, and from when."""

    body: dict
    attempt: int
    ready: int


@dataclass
class Run:
    """A run. Its open timers and tasks are by the number of their event; `chain` has the runs that continued as one another, by number."""

    number: int
    flow: str
    request: str
    text: int
    is_open: bool
    events: list = field(default_factory=list)
    timers: dict = field(default_factory=dict)
    tasks: dict = field(default_factory=dict)
    chain: list = field(default_factory=list)

    @property
    def began(self):
        return self.events[0].at

    @property
    def moved(self):
        return self.events[-1].at

    @property
    def state(self):
        return "open" if self.is_open else ENDS[self.events[-1].kind]

    def is_late(self, now, most):
        """Whether an activity is ready, or a timer due, for longer than `most`."""
        return any(now - it > most for it in (*(task.ready for task in self.tasks.values()), *self.timers.values()))


@dataclass
class Store:
    """What a page shows: texts by number, and runs in the order of their numbers."""

    texts: dict
    runs: list
    is_verified: bool = False


def copied(path, folder):
    """Copies both files of a store while no program has it open, and returns the path of the copy."""
    path, copy = os.path.realpath(path), os.path.join(folder, "store.db")
    with open(path, "rb") as file, open(copy, "wb") as to:
        try:
            fcntl.lockf(file, fcntl.LOCK_SH | fcntl.LOCK_NB, *READING)
        except OSError:
            raise Refused("another program has the file open") from None
        shutil.copyfileobj(file, to)
        if os.path.exists(path + "-wal"):
            shutil.copyfile(path + "-wal", copy + "-wal")
    return copy


def is_verified(copy, path, program):
    """Has the program judge the copy of a store. It refuses a damaged one, and answers False if the program is one that has no `verify`."""
    ended = subprocess.run([program, "verify", copy], stdin=subprocess.DEVNULL, capture_output=True, text=True, errors="replace")
    if ended.returncode == 0:
        return True
    said = ended.stderr.replace(copy, path)
    fault = FAULT.search(said)
    if fault and fault[0].startswith("flow: E97"):
        return False
    raise Refused(fault[0].strip() if fault else f"flow verify ended with {ended.returncode}: {said.strip()}")


def with_moment(at, body):
    """The body of an event as histories show it: with its moment among its members."""
    return json.dumps({**json.loads(body), "at": at}, ensure_ascii=False, separators=(",", ":"), sort_keys=True)


def events_in(rows, form):
    """The run, the number, the kind and the body of each event. In the second format its moment has a column."""
    if form == 1:
        return rows("SELECT run, id, kind, body FROM event ORDER BY run, id")
    return [(*its, with_moment(at, body)) for *its, at, body in rows("SELECT run, id, kind, at, body FROM event2 ORDER BY run, id")]


def fill(runs, rows, form):
    """Puts events, timers and tasks to their runs."""
    for number, event, kind, body in events_in(rows, form):
        runs[number].events.append(Event(event, Kind(kind), json.loads(body), body))
    for number, event, due in rows("SELECT run, id, due FROM timer ORDER BY run, id"):
        runs[number].timers[event] = due
    for number, event, attempt, ready in rows("SELECT run, id, attempt, ready FROM outbox ORDER BY run, id"):
        runs[number].tasks[event] = Task(runs[number].events[event - 1].body, attempt, ready)


def join(runs):
    """Puts those runs into one chain that continued as one another: a run without a request goes on for the one of its flow before it."""
    last = {}
    for run in runs:
        if not run.request and run.flow in last:
            run.chain = last[run.flow].chain
        run.chain.append(run.number)
        last[run.flow] = run


def store_in(rows):
    """The texts and the runs of a store by what its tables answer to a statement."""
    if not rows("SELECT 1 FROM sqlite_schema WHERE name = 'meta'"):
        return Store({}, [])
    form = rows("SELECT value FROM meta WHERE name = 'format'")
    if form not in ([(1,)], [(2,)]):
        raise Refused("its format isn't 1 or 2")
    texts = {number: text_of(number, source) for number, source in rows("SELECT num, body FROM text ORDER BY num")}
    runs = {it[0]: Run(*it) for it in rows("SELECT num, flow, req, textnum, isopen FROM run ORDER BY num")}
    fill(runs, rows, form[0][0])
    if not all(run.events and run.text in texts and (run.is_open or run.events[-1].kind in ENDS) for run in runs.values()):
        raise Refused("its rows don't fit together")
    join(runs.values())
    return Store(texts, list(runs.values()))


def read(copy):
    """The store of a copy. It asks of the rows only what it takes to draw them: the program has judged them."""
    with contextlib.closing(sqlite3.connect(f"file:{copy}?mode=ro", uri=True)) as database:
        try:
            return store_in(lambda statement: database.execute(statement).fetchall())
        except (LookupError, ValueError, TypeError):
            raise Refused("its rows don't fit together") from None


def opened(path, folder, program):
    """A store that nobody has open, read from a copy in a folder, once the program says that it's whole."""
    copy = copied(path, folder)
    verified = is_verified(copy, path, program)
    store = read(copy)
    store.is_verified = verified
    return store
