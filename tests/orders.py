"""Orders by `examples/worker.py`, while its `flow` and its processes are killed, or its disk is full. A plain model says what
each has to become."""
import importlib.util
import json
import os
import random
import re
import resource
import sqlite3
import subprocess
import threading
import time

from program import FLOW, HERE, flow, without_reasons

ORDERS, FEW = 100, 20
KILLS = {"flow": 50, "processes": 20}
FULL = 4
WORKERS = 4
SEED = int(os.environ.get("SERVE_SEED", "0"))
# Where the processes note which attempt they begin, a line each.
NOTES = os.environ.get("SERVE_NOTES", os.devnull)

# Kinds of events by their numbers in a store.
STARTED, SIGNALED, DONE, FAILED, FIRED, SCHEDULED, TIMER, CANCELED, COMPLETED, CRASHED = 1, 2, 3, 4, 5, 7, 8, 9, 11, 12
# An order is paid by a signal, or it waits in vain, and so long, in milliseconds.
LONG, SHORT = 3_600_000, 60
SEND = """
workflow send(order: int, patience: int) {
    activity weigh(int) -> int;
    activity label(int, int) -> text;
    signal paid: int;

    let weight = 0;
    let tag = "";
    let sum = 0;

    parallel {
        {
            weight = call weigh(order) retry 4 every 30;
            sleep 40;
            tag = call label(order, weight) retry 2 every 20 else { tag = "none"; };
        }
        { sum = wait signal paid for patience else { sum = 0 - 1; }; }
    }
    if sum < 0 { fail tag ++ ", not paid"; }
    sleep 25;
    return tag ++ ", " ++ text(sum);
}
"""
# The name of each activity, with how many of its attempts may fail.
FAILING = {"charge": (0, 0, 0, 1, 2, 3), "ship": (0, 0, 1, 2), "refund": (0, 1, 3), "weigh": (0, 0, 1, 3), "label": (0, 0, 1, 2)}


def pay():
    """The text of the example, with pauses that are shorter."""
    with open(os.path.join(HERE, "examples/refund.flow"), encoding="utf-8") as file:
        return re.sub(r"every \d+", "every 70", file.read())


def picks(*words):
    return random.Random(" ".join(map(str, (SEED, *words))))


def fails(order, activity):
    """How many attempts of an order's activity fail."""
    return picks(order, activity).choice(FAILING[activity])


def is_paid(order):
    return picks(order, "paid").random() < 0.7


def value_of(activity, order, args):
    return {"charge": f"payment {order}", "ship": f"parcel {order}", "refund": 500, "weigh": 10 * order, "label": f"label {args}"}[activity]


def reason_of(activity, attempt):
    return f"OSError('{activity} {attempt}')"


def activity(name):
    """What a process does of a task: it notes the attempt, and takes its time."""

    def call(task, *args):
        with open(NOTES, "a", encoding="utf-8") as notes:
            notes.write(json.dumps([task["run"], task["event"], task["attempt"]]) + "\n")
        print(f"{name} is no report")
        time.sleep(random.random() * 0.02)
        order = int(task["flow"].removeprefix("order-"))
        if task["attempt"] <= fails(order, name):
            raise OSError(f"{name} {task['attempt']}")
        return value_of(name, order, list(args))

    return call


def do_tasks():
    """What the processes do. What they print goes to a file beside their notes."""
    os.dup2(os.open(NOTES + ".printed", os.O_WRONLY | os.O_APPEND | os.O_CREAT, 0o600), 2)
    worker().do_tasks()


def worker():
    """The example, with this file's activities."""
    spec = importlib.util.spec_from_file_location("worker", os.path.join(HERE, "examples/worker.py"))
    it = importlib.util.module_from_spec(spec)
    spec.loader.exec_module(it)
    it.FLOW, it.ACTIVITIES = FLOW, {name: activity(name) for name in FAILING}
    return it


# The model: the events of an order, without moments, and with the event that another one is of in the place of its number.


def called(order, name, args, tries, every, gives):
    """The events of a call, and whether it gives a value."""
    task = (SCHEDULED, {"activity": name, "args": args, "every": every, "gives": gives, "tries": tries})
    if fails(order, name) < tries:
        return [task, (DONE, {"of": task, "value": value_of(name, order, args)})], True
    return [task, (FAILED, {"of": task, "text": reason_of(name, tries)})], False


def paid_order(order):
    """The events of an order of `pay`."""
    events, is_charged = called(order, "charge", [order, 500], 3, 70, "text")
    events.insert(0, (STARTED, {"args": [order, 500]}))
    if not is_charged:
        return events + [(CRASHED, {"cause": "ActivityFailed", "text": reason_of("charge", 3)})]
    more, is_shipped = called(order, "ship", [order], 2, 70, "text")
    events += more
    if is_shipped:
        return events + [(COMPLETED, {"value": f"parcel {order}"})]
    more, _ = called(order, "refund", [f"payment {order}", 500], 20, 70, "int")
    return events + more + [(CRASHED, {"cause": "UserFail", "text": f"order {order} not shipped, 500 given back"})]


def sent_order(order):
    """The events of an order of `send`: its start and end, and of each branch."""
    weight, _ = called(order, "weigh", [order], 4, 30, "int")
    label, is_labelled = called(order, "label", [order, 10 * order], 2, 20, "text")
    tag = f"label {[order, 10 * order]}" if is_labelled else "none"
    first, second, last = ((TIMER, {"for": delay}) for delay in (LONG if is_paid(order) else SHORT, 40, 25))
    works = [*weight, second, (FIRED, {"of": second}), *label]
    start = [(STARTED, {"args": [order, LONG if is_paid(order) else SHORT]})]
    if not is_paid(order):
        return start + [(CRASHED, {"cause": "UserFail", "text": f"{tag}, not paid"})], works, [first, (FIRED, {"of": first})]
    signal = (SIGNALED, {"name": "paid", "req": f"paid-{order}", "value": order})
    ends = [last, (FIRED, {"of": last}), (COMPLETED, {"value": f"{tag}, {order}"})]
    return start + ends, works, [first, signal, (CANCELED, {"of": first})]


def plain(rows):
    """The events of a run in the model's form."""
    events = []
    for kind, body in rows:
        at, due = body.pop("at"), body.pop("due", None)
        if due is not None:
            body["for"] = due - at
        if "of" in body:
            body["of"] = events[body["of"] - 1]
        events.append((kind, body))
    return events


def branches(events):
    """The events of an order of `send`, those of its branches apart."""
    works, waits, rest = [], [], []
    for event in events:
        about = event[1].get("of", event)
        if about[0] == SCHEDULED or (about[0] == TIMER and about[1]["for"] == 40):
            works.append(event)
        elif about[0] == SIGNALED or (about[0] == TIMER and about[1]["for"] in (LONG, SHORT)):
            waits.append(event)
        else:
            rest.append(event)
    return rest, works, waits


def histories(base):
    """The flow and the events of each run that is closed, and how many are open, by the C library's SQLite."""
    conn, found = sqlite3.connect(base), {}
    rows = conn.execute("SELECT flow, kind, at, body FROM event2 JOIN run ON run.num = event2.run WHERE isopen = 0 ORDER BY run, id")
    for name, kind, at, body in rows:
        found.setdefault(int(name.removeprefix("order-")), []).append((kind, {**json.loads(body), "at": at}))
    counts = ("run WHERE isopen = 1", "timer", "outbox")
    left = tuple(conn.execute(f"SELECT count(*) FROM {it}").fetchone()[0] for it in counts)
    conn.close()
    return {order: plain(rows) for order, rows in found.items()}, left


def watched(its):
    """The example's `Flow`, which notes what is printed and reported, and starts its processes by `its.started`."""

    class Watched(its.Flow):
        def __init__(self, *words):
            self.lives, self.printed, self.twice, self.reports, self.unasked = 1, set(), [], [], []
            self.ever = set()
            super().__init__(*words)

        def begin_again(self):
            self.lives, self.printed = self.lives + 1, set()
            super().begin_again()

        def take(self, task):
            key = its.key_of(task)
            self.twice += [key] if key in self.printed else []
            self.printed.add(key)
            self.ever.add(key)
            super().take(task)

        def send(self, line, asker=None):
            if line["do"] in ("complete", "fail"):
                self.reports.append(its.key_of(line))
                self.unasked += [line] if its.key_of(line) not in self.ever else []
            super().send(line, asker)

    return Watched


class Killer(threading.Thread):
    """Ends what `alive` gives, so many times, after random pauses."""

    def __init__(self, alive, ends, times, longest):
        super().__init__(daemon=True)
        self.alive, self.ends, self.times, self.longest, self.killed = alive, ends, times, longest, 0
        self.random = picks("killer", times)

    def run(self):
        while self.killed < self.times:
            time.sleep(self.random.random() * self.longest)
            alive = [child for child in list(self.alive()) if child.poll() is None]
            if alive:
                child = self.random.choice(alive)
                self.ends(child)
                child.wait()
                self.killed += 1


def fills(child):
    """The disk of a process takes no more, so that its next commit is refused."""
    resource.prlimit(child.pid, resource.RLIMIT_FSIZE, (4096, resource.RLIM_INFINITY))


def ordered(flow, texts, order):
    """Starts an order; the first half of a hundred is of one text."""
    name, half = f"order-{order}", order % 2
    args = [order, 500] if half else [order, LONG if is_paid(order) else SHORT]
    return flow.ask("start", text=texts[half], flow=name, req=name, args=args, at=0)["run"]


def pays(flow, order):
    """Sends the signal of an order that waits for it, after a while."""
    time.sleep(picks(order, "pause").random() * 0.4)
    flow.ask("signal", flow=f"order-{order}", name="paid", req=f"paid-{order}", value=order, at=0)


def make_all(flow, count, longest):
    """Starts so many orders, a few at a time, sends their signals, and waits for their ends."""
    texts = [flow.ask("register", src=SEND)["text"], flow.ask("register", src=pay())["text"]]
    runs, signals = [], []
    for order in range(1, count + 1):
        runs.append(ordered(flow, texts, order))
        if order % 2 == 0 and is_paid(order):
            signals.append(threading.Thread(target=pays, args=(flow, order), daemon=True))
            signals[-1].start()
        time.sleep(picks(order, "next").random() * longest)
    for it in signals:
        it.join()
    return [flow.wait(run) for run in runs]


def compare(tally, base, count):
    found, left = histories(base)
    tally.check("orders: nothing is left", left, (0, 0, 0))
    for order in range(1, count + 1):
        if order % 2:
            tally.check(f"order {order}", found.get(order), paid_order(order))
        else:
            tally.check(f"order {order}", branches(found.get(order, [])), sent_order(order))
    tally.check("orders: verified", flow(["verify", base])[::2], (0, b""))


def begun():
    with open(NOTES, encoding="utf-8") as notes:
        return [tuple(json.loads(line)) for line in notes]


def killed_orders(tally, folder):
    """A hundred orders, while `flow` and the processes are killed."""
    its = worker()
    base, children, start = os.path.join(folder, "orders.db"), [], its.started

    def started(*words):
        child = start(*words)
        children.extend([child] if words[-1] == "--do" else [])
        return child

    its.started = started
    engine = watched(its)(base, WORKERS)
    killed = subprocess.Popen.kill
    killers = [Killer(lambda: [engine.child], killed, KILLS["flow"], 0.4), Killer(lambda: children, killed, KILLS["processes"], 0.9)]
    for it in killers:
        it.start()
    make_all(engine, ORDERS, 0.25)
    for it in killers:
        it.join()
    engine.end()
    tally.check("orders: how the last life ends", engine.child.returncode, 0)
    compare(tally, base, ORDERS)
    once = sorted(set(engine.reports))
    tally.check("orders: tasks printed twice in a life", engine.twice, [])
    tally.check("orders: reports of what wasn't printed", engine.unasked, [])
    tally.check("orders: each reported once", sorted(engine.reports), once)
    notes = begun()
    tally.check("orders: what was begun", sorted(set(notes)), once)
    with open(NOTES + ".printed", encoding="utf-8") as printed:
        lost = len(notes) - len(list(printed))
    tally.check(f"orders: what activities print, but {lost} lines", 0 <= lost <= KILLS["processes"], True)
    again = len(notes) - len(once)
    tally.check(f"orders: begun again, {again} of them, by a kill of its process", again <= KILLS["processes"], True)
    kills = " and ".join(f"{killer.killed} kills of {name}" for killer, name in zip(killers, KILLS))
    print(f"{ORDERS} orders, {len(once)} reports, {engine.lives} lives, {kills}")


def orders_over_a_full_disk(tally, folder):
    """Some orders, while the disk is full now and then: `flow` ends by E84, and the worker starts it again and sends what has no reply."""
    its = worker()
    base, errors = os.path.join(folder, "full orders.db"), os.path.join(folder, "errors")

    def started(*words):
        # a signal that says that a file is too large is ignored here, and so in the child
        with open(errors, "a", encoding="utf-8") as err:
            pipes = {"stdin": subprocess.PIPE, "stdout": subprocess.PIPE, "stderr": None if words[-1] == "--do" else err}
            return subprocess.Popen(words, **pipes, encoding="utf-8", restore_signals=False)

    its.started = started
    engine = watched(its)(base, WORKERS)
    killer = Killer(lambda: [engine.child], fills, FULL, 0.6)
    killer.start()
    make_all(engine, FEW, 0.3)
    while killer.is_alive():  # where no order is left to be committed, texts are
        engine.ask("register", src=f"{SEND}# {time.time()}")
        killer.join(0.2)
    engine.end()
    compare(tally, base, FEW)
    tally.check("orders over a full disk: reported once", sorted(engine.reports), sorted(set(engine.reports)))
    with open(errors, "rb") as err:
        said = set(without_reasons(err.read()).decode().split())
    tally.check("orders over a full disk: what is said", said - {"E80"}, {"flow:", "E84"})
