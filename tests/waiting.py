"""Random stores, and a model of what the open runs in them wait for: programs of calls, sleeps, waits and parallel blocks, and their runs.

The model is no copy of the program's: it goes through a tree of statements by recursion, and keeps of a history what is listed of it. An
upgrade is asked again from the first event on. Moments are in the far future, so no clock fires a timer in between.
"""
import contextlib
import random
from dataclasses import dataclass, field

BEGIN = 4_000_000_000_000
ACTIVITIES, SIGNALS = ("make", "pack", "send"), ("go", "paid", "stop")


# ---- programs: lists of statements, each a tuple that begins with its word


def some_block(rng, depth):
    return [some_statement(rng, depth) for _ in range(rng.randint(1, 3))]


def some_statement(rng, depth):
    word = rng.choice(("call", "call", "sleep", "wait", "wait", "until") + ("patch", "parallel", "parallel", "parallel") * (depth > 0))
    other = some_block(rng, depth - 1) if depth > 0 and rng.random() < 0.4 else []
    if word == "call":
        return word, rng.choice(ACTIVITIES), rng.randint(1, 3), rng.choice((0, 500, 60_000)), other if rng.random() < 0.5 else None
    if word == "sleep":
        return word, rng.randint(1, 100_000)
    if word == "wait":
        return word, rng.choice(SIGNALS)
    if word == "until":
        return word, rng.choice(SIGNALS), rng.randint(1, 100_000), other
    if word == "patch":
        return word, f"p{rng.randrange(10**9)}", some_block(rng, depth - 1)
    return word, [some_block(rng, depth - 1) for _ in range(rng.randint(1, 3))]


def written(block):
    return "{ " + " ".join(map(source_of, block)) + " }"


def source_of(statement):
    word, *parts = statement
    if word == "call":
        name, tries, every, other = parts
        return f"x = call {name}(x) retry {tries} every {every}" + (";" if other is None else f" else {written(other)};")
    if word == "until":
        return f"x = wait signal {parts[0]} for {parts[1]} else {written(parts[2])};"
    if word == "patch":
        return f'patch "{parts[0]}" {written(parts[1])}'
    if word == "parallel":
        return "parallel { " + " ".join(map(written, parts[0])) + " }"
    return {"sleep": "sleep {};", "wait": "x = wait signal {};"}[word].format(*parts)


def text_of(block):
    """The text of a program that goes on as a new run as long as its number says."""
    declared = [f"activity {it}(int) -> int;" for it in ACTIVITIES] + [f"signal {it}: int;" for it in SIGNALS]
    last = "if n > 1 { continue as new(n - 1); } return x;"
    return " ".join(["workflow w(n: int) {", *declared, "let x = 0;", *map(source_of, block), last, "}"])


def changed(rng, block):
    """Another program: a wait for another signal at the end or in place of the first one, which a run that is there may take."""
    waits = [at for at, it in enumerate(block) if it[0] in ("wait", "until")]
    other = list(block)
    if waits and rng.random() < 0.7:
        word, _, *rest = block[waits[0]]
        other[waits[0]] = (word, rng.choice(SIGNALS), *rest)
    else:
        other.append(("wait", rng.choice(SIGNALS)))
    return other


# ---- runs


class Closed(Exception):
    """The run has ended."""


@dataclass
class Run:
    """A run: what is listed of it, and a tree of where it waits."""

    number: int
    flow: str
    text: int
    block: list
    left: int
    inputs: list = field(default_factory=list)
    at: int = 0
    events: list = field(default_factory=list)
    tasks: dict = field(default_factory=dict)
    timers: dict = field(default_factory=dict)
    sent: list = field(default_factory=list)
    place: tuple = None
    is_open: bool = True
    goes_on: bool = False

    def record(self, *what):
        self.events.append((*what, self.at))
        return len(self.events)

    # ---- a place is a word and what it waits for; `None` is the end

    def begin(self, block):
        for at, statement in enumerate(block):
            place = self.begin_one(*statement)
            if place:
                return "then", place, block[at + 1 :]
        return None

    def begin_one(self, word, *parts):
        if word == "call":
            event = self.record("scheduled", *parts[:3])
            self.tasks[event] = [parts[0], 1, self.at]
            return "activity", event, parts
        if word == "sleep":
            return "timer", self.timer(parts[0]), []
        if word == "patch":
            self.record("marker", parts[0])
            return self.begin(parts[1])
        if word == "parallel":
            return self.beside([self.begin(it) for it in parts[0]])
        if parts[0] in self.sent:
            self.sent.remove(parts[0])
            return None
        return ("signal", parts[0]) if word == "wait" else ("until", parts[0], self.timer(parts[1]), parts[2])

    def timer(self, delay):
        event = self.record("timer", self.at + delay)
        self.timers[event] = self.at + delay
        return event

    @staticmethod
    def beside(places):
        return ("beside", places) if any(places) else None

    def fed(self, place, takes):
        """What a place becomes by what it waits for, and whether it took it: the leftmost that waits for it does."""
        word = place[0] if place else ""
        if word == "then":
            inner, is_taken = self.fed(place[1], takes)
            if is_taken and not inner:
                return self.begin(place[2]), True
            return ("then", inner, place[2]), is_taken
        if word == "beside":
            for at, it in enumerate(place[1]):
                inner, is_taken = self.fed(it, takes)
                if is_taken:
                    return self.beside([*place[1][:at], inner, *place[1][at + 1 :]]), True
            return place, False
        found = takes(place) if place else None
        return (self.begin(found), True) if found is not None else (place, False)

    def turn(self, takes):
        try:
            self.place, is_taken = self.fed(self.place, takes)
            if not self.place:
                self.end()
            return is_taken
        except Closed:
            self.close()
            return True

    def end(self):
        if self.left > 1:
            self.goes_on = not self.is_first_turn()
            self.record("continued" if self.goes_on else "failed")
        else:
            self.record("completed")
        self.close()

    def is_first_turn(self):
        return len(self.inputs) == 1

    def close(self):
        self.is_open, self.tasks, self.timers, self.place = False, {}, {}, None

    # ---- what comes from outside: its moment is that of the last event at least

    def take(self, what, *parts):
        self.inputs.append((what, *parts))
        self.at = max(self.at, parts[0])
        getattr(self, what)(*parts[1:])

    def started(self):
        self.record("started")
        self.place = self.begin(self.block)
        if not self.place:
            self.end()

    def completed(self, event):
        self.record("done", event)
        del self.tasks[event]
        self.turn(lambda it: [] if it[:2] == ("activity", event) else None)

    def failed(self, event):
        """The last attempt. Without a block of its own the call fails the run."""
        self.record("undone", event)
        del self.tasks[event]

        def takes(place):
            if place[:2] != ("activity", event):
                return None
            if place[2][3] is None:
                self.record("failed")
                raise Closed
            return place[2][3]

        self.turn(takes)

    def signaled(self, name):
        self.record("signaled", name)

        def takes(place):
            if place[0] == "until" and place[1] == name:
                self.record("canceled", place[2])
                del self.timers[place[2]]
                return []
            return [] if place == ("signal", name) else None

        if not self.turn(takes):
            self.sent.append(name)

    def fired(self, event):
        self.record("fired", event)
        del self.timers[event]
        self.turn(lambda it: it[3] if it[0] == "until" and it[2] == event else [] if it[:2] == ("timer", event) else None)

    def terminated(self):
        self.record("terminated")
        self.close()

    # ---- what is listed

    def waits(self, place):
        word = place[0] if place else ""
        if word == "then":
            return self.waits(place[1])
        if word == "beside":
            return [name for it in place[1] for name in self.waits(it)]
        return [place[1]] if word in ("signal", "until") else []

    def listed(self):
        return {
            "activities": [[event, *self.tasks[event]] for event in sorted(self.tasks)],
            "at": self.at,
            "events": len(self.events),
            "flow": self.flow,
            "run": self.number,
            "text": self.text,
            "timers": [[event, self.timers[event]] for event in sorted(self.timers)],
            "waits": self.waits(self.place),
        }


# ---- stores


class Store:
    """Texts and runs, the commands that made them, and their replies."""

    def __init__(self, seed):
        self.rng, self.clock = random.Random(seed), BEGIN
        self.blocks, self.runs, self.commands, self.replies, self.asked = [], [], [], [], 0

    def ask(self, reply, do, **keys):
        self.commands.append({"do": do, **keys})
        self.replies.append(reply)

    def request(self):
        self.asked += 1
        return f"q{self.asked}"

    def moment(self):
        """The clock goes on, and now and then back."""
        self.clock = max(BEGIN, self.clock + self.rng.choice((0, 1, 700, 40_000, -30_000)))
        return self.clock

    def open(self):
        return [it for it in self.runs if it.is_open]

    def register(self, block):
        """A text that is there keeps its number."""
        if block not in self.blocks:
            self.blocks.append(block)
        text = self.blocks.index(block) + 1
        self.ask({"reply": "registered", "text": text}, "register", src=text_of(block))
        return text

    def begun(self, flow, text, left, at):
        run = Run(len(self.runs) + 1, flow, text, self.blocks[text - 1], left)
        self.runs.append(run)
        run.take("started", at)
        return run.number

    def gone_on(self, run):
        """The next run of a flow, where one goes on as a new run."""
        if run.goes_on and not run.is_open:
            run.goes_on = False
            self.begun(run.flow, run.text, run.left - 1, run.at)

    def start(self):
        flow, text, left, at = f"flow-{self.rng.randint(1, 40)}", self.rng.randint(1, len(self.blocks)), self.rng.choice((1, 1, 2)), self.moment()
        if not any(it.flow == flow for it in self.open()):
            number = self.begun(flow, text, left, at)
            self.ask({"reply": "started", "run": number}, "start", flow=flow, text=text, args=[left], at=at, req=self.request())

    def recorded(self, run, at, what, *parts):
        event = len(run.events) + 1
        run.take(what, at, *parts)
        self.gone_on(run)
        return {"event": event, "reply": "recorded", "run": run.number}

    def report(self, run):
        if not run.tasks:
            return
        event, at = self.rng.choice(list(run.tasks)), self.moment()
        _, attempt, _ = run.tasks[event]
        _, _, tries, every, _ = run.events[event - 1]
        keys = {"run": run.number, "event": event, "attempt": attempt, "at": at}
        if self.rng.random() < 0.5:
            self.ask(self.recorded(run, at, "completed", event), "complete", value=7, **keys)
        elif attempt == tries:
            self.ask(self.recorded(run, at, "failed", event), "fail", reason="no", **keys)
        else:
            ready = max(at, run.at) + every
            run.tasks[event][1:] = attempt + 1, ready
            self.ask({"attempt": attempt + 1, "from": ready, "reply": "retry", "run": run.number}, "fail", reason="no", **keys)

    def signal(self, run):
        name, at = self.rng.choice(SIGNALS), self.moment()
        reply = self.recorded(run, at, "signaled", name)
        self.ask(reply, "signal", flow=run.flow, name=name, value=5, at=at, req=self.request())

    def due(self, at):
        return min(((due, run.number, event) for run in self.open() for event, due in run.timers.items() if due <= at), default=None)

    def tick(self):
        at, count = self.moment() + self.rng.choice((0, 20_000)), 0
        while count < 32 and self.due(at):
            _, number, event = self.due(at)
            self.recorded(self.runs[number - 1], at, "fired", event)
            count += 1
        self.ask({"count": count, "more": self.due(at) is not None, "reply": "fired"}, "tick", at=at)

    def terminate(self, run):
        at = self.moment()
        self.ask(self.recorded(run, at, "terminated"), "terminate", run=run.number, reason="enough", at=at)

    def upgrade(self, run):
        """Under another text the same inputs have to lead to the same events; then it goes on where they lead. Patches would ask for more."""
        if "'patch'" in repr(run.block):
            return
        text = self.register(changed(self.rng, run.block))
        other = Run(run.number, run.flow, text, self.blocks[text - 1], run.left)
        with contextlib.suppress(KeyError):
            for it in run.inputs:
                other.take(*it)
        if other.events != run.events:
            self.ask("E68", "upgrade", run=run.number, text=text)
            return
        for event, (_, *rest) in run.tasks.items():
            other.tasks[event][1:] = rest
        self.runs[run.number - 1] = other
        self.ask({"reply": "upgraded", "run": run.number, "text": text}, "upgrade", run=run.number, text=text)

    def step(self):
        what = self.rng.choice(["start"] * 4 + ["report"] * 6 + ["signal"] * 4 + ["tick", "tick", "terminate", "upgrade"])
        if what in ("start", "tick"):
            getattr(self, what)()
        elif self.open():
            getattr(self, what)(self.rng.choice(self.open()))

    def listed(self, first=1, most=256):
        """The reply to the question for the open runs from a number on, so many at most."""
        found = [it.listed() for it in self.open() if it.number >= first]
        behind = {"next": found[most]["run"]} if len(found) > most else {}
        return {**behind, "reply": "open", "runs": found[:most]}


def filled(seed, steps):
    """A random store."""
    store = Store(seed)
    for _ in range(3):
        store.register(some_block(store.rng, 2))
    for _ in range(steps):
        store.step()
    return store
