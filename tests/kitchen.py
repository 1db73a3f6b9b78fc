"""A store that shows all that a page has to show: every kind of event, every state, chains, and names that would like to be HTML.

Its moments are given. It's seen from `NOW`, a week after `DAY_ONE`.
"""
import json
import os
import subprocess

from program import FLOW, HERE

SECOND, MINUTE, HOUR, DAY = 1_000, 60_000, 3_600_000, 86_400_000
DAY_ONE = 1_790_000_000_000
NOW = DAY_ONE + 7 * DAY

KITCHEN = """# Every kind of event: calls, a patch, waits with and without an end, a sleep, and the next run.
workflow kitchen(name: text, times: int) {
    activity work(text, int) -> int;
    activity tell(text) -> text;
    signal go: int;
    signal stop: text;

    let i = 0;
    let got = 0;
    let said = "";
    let why = "none";

    i = call work(name, 1);
    patch "say it <twice>" {
        said = call tell("first");
    }
    parallel {
        { sleep 3600000; }
        { got = wait signal go for 7200000 else { got = 0 - 1; }; }
        { why = wait signal stop; }
    }
    if times > 1 {
        continue as new(name, times - 1);
    }
    return why ++ said;
}
"""
HOSTILE = """# </pre></details><script>alert("text")</script> & <!-- "quoted" 'twice' &lt;
workflow hostile() {
    signal paid: int;
    let r = 0;
\tr = wait signal paid; # call none(1) retry 3 every 5; wait signal none; } } \u202e \u2028
    return "</script><b>" ++ text(r);
}
"""
SCRIPT, IMAGE, MOUSE = "<script>alert(1)</script>", '"><img src=x onerror=alert(2)>', "' onmouseover='alert(3)' x='"
TURNED, ABROAD = "\u202egpj.exe\u0000\u0007", "Ünïcödé 流れ ☂ é"
TEXTS = ("kitchen", "refund", "subscription", "approval", "provisioning", "parcel", "hostile")


class Driver:
    """`flow drive` over a file: a command at a time, with its reply."""

    def __init__(self, path, *words):
        self.flow = subprocess.Popen([FLOW, "drive", path, *words], stdin=subprocess.PIPE, stdout=subprocess.PIPE)

    def ask(self, do, **keys):
        self.flow.stdin.write(json.dumps({"do": do, **keys}).encode() + b"\n")
        self.flow.stdin.flush()
        return json.loads(self.flow.stdout.readline())

    def register(self, source):
        return self.ask("register", src=source)["text"]

    def start(self, flow, text, at, *args):
        return self.ask("start", flow=flow, text=text, at=at, args=args, req=f"new {flow}"[:64])["run"]

    def first(self, run):
        """The open activity of a run that was scheduled first."""
        return self.ask("describe", run=run)["activities"][0]

    def complete(self, run, at, value, attempt=1):
        return self.ask("complete", run=run, event=self.first(run), attempt=attempt, value=value, at=at)

    def fail(self, run, reason, *moments):
        """Reports a failed attempt for each of these moments."""
        event = self.first(run)
        for attempt, at in enumerate(moments, 1):
            self.ask("fail", run=run, event=event, attempt=attempt, reason=reason, at=at)

    def signal(self, flow, name, value, at):
        return self.ask("signal", flow=flow, name=name, value=value, at=at, req=f"{name} {at}")

    def close(self):
        self.flow.stdin.close()
        self.flow.stdout.close()
        return self.flow.wait()


def source_of(name):
    """The text of a workflow: an own one, or that of an example."""
    own = {"kitchen": KITCHEN, "hostile": HOSTILE}
    if name in own:
        return own[name]
    with open(os.path.join(HERE, f"examples/{name}.flow"), encoding="utf-8") as it:
        return it.read()


def subscriptions(driver, text):
    """A chain of three runs, billed for the second time in an hour, and one that was billed today. Nothing else waits for a timer yet."""
    began = DAY_ONE - 58 * DAY
    bob = driver.start("sub-bob", text, began, "bob", 1)
    for run in (bob, bob + 1):
        at = began + (run - bob) * 30 * DAY
        driver.complete(run, at + SECOND, 900)
        driver.ask("tick", at=at + 30 * DAY + SECOND)
    driver.fail(bob + 2, "no such card", NOW - 10 * MINUTE)
    ann = driver.start("sub-ann", text, NOW - 6 * HOUR, "ann", 1)
    driver.complete(ann, NOW - 6 * HOUR + SECOND, 900)


def kitchens(driver, text):
    """A run with every event that a text can ask for, and the next one, which stands still since an hour after the first."""
    first = driver.start("kitchen-1", text, DAY_ONE, 'stew "hot" & <spicy>', 2)
    driver.complete(first, DAY_ONE + 9 * SECOND, 1)
    driver.complete(first, DAY_ONE + 12 * SECOND, "hi")
    driver.signal("kitchen-1", "go", 7, DAY_ONE + 20 * MINUTE)
    driver.ask("tick", at=DAY_ONE + HOUR + 12 * SECOND)
    driver.signal("kitchen-1", "stop", "done", DAY_ONE + 3 * HOUR)
    driver.complete(first + 1, DAY_ONE + 3 * HOUR + 5 * SECOND, 2)
    driver.complete(first + 1, DAY_ONE + 3 * HOUR + 9 * SECOND, "ho")


def orders(driver, text):
    """One whose money is being given back, one that is done, and one that was never paid."""
    began = DAY_ONE + 5 * DAY
    refunded = driver.start("order-9", text, began, 9, 80)
    driver.complete(refunded, began + SECOND, "payment 9")
    driver.fail(refunded, "no van", began + MINUTE, began + 3 * MINUTE)
    driver.fail(refunded, "bank closed", *(began + minutes * MINUTE for minutes in (10, 20, 30)))
    done = driver.start("order-10", text, began + HOUR, 10, 20)
    driver.complete(done, began + HOUR + 2 * SECOND, "payment 10")
    driver.complete(done, began + 2 * HOUR, "parcel 10")
    unpaid = driver.start("order-11", text, began + HOUR, 11, 20)
    driver.fail(unpaid, "no <money>", *(began + HOUR + seconds * SECOND for seconds in (1, 3, 5)))


def approvals(driver, text):
    """One that is decided, one that is asked for this very moment, and one that was ended from outside."""
    decided = driver.start(SCRIPT, text, DAY_ONE + DAY, IMAGE)
    driver.complete(decided, DAY_ONE + DAY + MINUTE, 1)
    driver.signal(SCRIPT, "decision", IMAGE, DAY_ONE + DAY + HOUR)
    driver.start(MOUSE, text, NOW - 30 * SECOND, "trip to Rome")
    ended = driver.start("trip-2", text, DAY_ONE + DAY, "trip to Oslo")
    driver.ask("terminate", run=ended, at=DAY_ONE + 2 * DAY, reason="not needed")


def others(driver, provisioning, parcel, hostile):
    """Machines of which some are there, a parcel that nobody packs, and a text that is full of tags."""
    began = DAY_ONE + 6 * DAY
    machines = driver.start(ABROAD, provisioning, began, "web")
    driver.complete(machines, began + 2 * MINUTE, 41)
    driver.start(TURNED, parcel, began + HOUR, 70)
    driver.start("paid?", hostile, began + 2 * HOUR)


def fill(path):
    """Writes the store. Its runs are numbered in this order."""
    driver = Driver(path)
    texts = {name: driver.register(source_of(name)) for name in TEXTS}
    subscriptions(driver, texts["subscription"])
    kitchens(driver, texts["kitchen"])
    orders(driver, texts["refund"])
    approvals(driver, texts["approval"])
    others(driver, texts["provisioning"], texts["parcel"], texts["hostile"])
    return driver.close()


def fill_many(path, count):
    """Writes a store of so many runs, two thirds of them open."""
    lines = [json.dumps({"do": "register", "src": source_of("refund")})]
    for run in range(1, count + 1):
        at, keys = DAY_ONE + run * SECOND, {"run": run, "attempt": 1}
        lines.append(json.dumps({"do": "start", "flow": f"order-{run}", "req": f"q{run}", "text": 1, "args": [run, 80], "at": at}))
        lines.append(json.dumps({"do": "complete", "event": 2, "value": f"payment {run}", "at": at + 1, **keys}))
        if run % 3 == 0:
            lines.append(json.dumps({"do": "complete", "event": 4, "value": f"parcel {run}", "at": at + 2, **keys}))
    driven = subprocess.run([FLOW, "drive", path, "--batch", "64"], input="\n".join(lines).encode(), stdout=subprocess.DEVNULL)
    return driven.returncode
