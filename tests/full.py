"""Histories that are filled to their limit: 8,190 events, over which nothing is recorded but the end."""
import json
import os
import shutil

from lines import joined
from program import flow

FOREVER = "workflow w() { signal s: int; let v = 0; while 1 == 1 { v = wait signal s; } }"
# it waits for an activity, a timer and signals
BUSY = (
    "workflow w() { activity c(int) -> int; signal s: int; let r = 0; let v = 0; "
    "parallel { { r = call c(1) retry 2 every 5; } { sleep 100; } { while 1 == 1 { v = wait signal s; } } } }"
)
REGISTERED = '{"reply":"registered","text":1}'
STARTED = '{"reply":"started","run":1}'
HISTORY_FULL = '{"code":"E69","event":8191,"reply":"refused","run":1}'
NO_RUN_OPEN = '{"code":"E63","reply":"refused"}'
START = {"args": [], "at": 0, "do": "start", "flow": "f", "req": "q1", "text": 1}
DESCRIBE = {"do": "describe", "run": 1}


def register(text):
    return {"do": "register", "src": text}


def signal(value, at, req):
    return {"at": at, "do": "signal", "flow": "f", "name": "s", "req": req, "value": value}


def failure(attempt, at):
    return {"at": at, "attempt": attempt, "do": "fail", "event": 2, "reason": "no", "run": 1}


def recorded(event):
    return '{"event":%d,"reply":"recorded","run":1}' % event


def described(state, events, activities="", timers=""):
    return '{"activities":[%s],"events":%d,"flow":"f","reply":"run","state":"%s","text":1,"timers":[%s]}' % (activities, events, state, timers)


LAST = signal(0, 9999, "last")
FULL = (
    [(register(FOREVER), REGISTERED), (START, STARTED)]
    + [(signal(n, n, f"s{n}"), recorded(n + 1)) for n in range(1, 8190)]
    + [(DESCRIBE, described("open", 8190)), (LAST, HISTORY_FULL), (DESCRIBE, described("terminated", 8191)), (LAST, NO_RUN_OPEN)]
)
FILLED = (
    [(register(BUSY), REGISTERED), (START, STARTED)]
    + [(signal(n, n, f"s{n}"), recorded(n)) for n in range(4, 8191)]
    + [(DESCRIBE, described("open", 8190, "2", "3"))]
)
# what each command then does with the run that is filled up, and the reason of its end
AT_THE_LIMIT = [
    ([(LAST, HISTORY_FULL)], "history limit"),
    ([({"at": 9999, "attempt": 1, "do": "complete", "event": 2, "run": 1, "value": 5}, HISTORY_FULL)], "history limit"),
    # an attempt that is followed by another one adds no event
    ([(failure(1, 9999), '{"attempt":2,"from":10004,"reply":"retry","run":1}'), (failure(2, 9999), HISTORY_FULL)], "history limit"),
    (
        [
            ({"at": 9999, "do": "tick"}, '{"count":1,"more":false,"reply":"fired"}'),
            ({"at": 9999, "do": "tick"}, '{"count":0,"more":false,"reply":"fired"}'),
        ],
        "history limit",
    ),
    ([({"at": 9999, "do": "terminate", "reason": "why", "run": 1}, recorded(8191))], "why"),
    ([({"do": "upgrade", "run": 1, "text": 1}, '{"reply":"upgraded","run":1,"text":1}'), (LAST, HISTORY_FULL)], "history limit"),
]


def answered(tally, what, base, commands):
    lines = joined(json.dumps(command, separators=(",", ":")).encode() for command, _ in commands)
    replies = joined(reply.encode() for _, reply in commands)
    tally.check(what, flow(["drive", base, "--batch", "64"], lines, 1200), (0, replies, b""))


def check_end(tally, what, base, reason):
    """A run whose last event stands behind the last place closes there, for this reason."""
    lines = flow(["history", base, "1"])[1].decode().splitlines()
    end = '8191 WorkflowExecutionTerminated {"at":9999,"text":"%s"}' % reason
    tally.check(f"{what}, its end", (len(lines), lines[-1]), (8191, end))


def by_signals(tally, folder):
    answered(tally, "a full history, over memory", "-", FULL)
    base = os.path.join(folder, "full.db")
    for part in [FULL[:4000], FULL[4000:-4]] + [[it] for it in FULL[-4:]]:
        answered(tally, "a full history, over a file", base, part)
    check_end(tally, "a full history", base, "history limit")


def by_each_command(tally, folder):
    filled = os.path.join(folder, "filled.db")
    answered(tally, "a history that is filled up", filled, FILLED)
    for number, (commands, reason) in enumerate(AT_THE_LIMIT):
        base = os.path.join(folder, f"limit{number}.db")
        shutil.copy(filled, base)
        for part in [[it] for it in commands] + [[(DESCRIBE, described("terminated", 8191))]]:
            answered(tally, f"at the limit, {commands}", base, part)
        check_end(tally, f"at the limit, {commands}", base, reason)


def jobs(tally, folder):
    yield lambda: by_signals(tally, folder)
    yield lambda: by_each_command(tally, folder)
