#!/usr/bin/env python3
"""Pays orders, with workers of your own: worker.py DB ORDER .. [--workers N] [--files N].

It starts `flow serve DB`, which prints a line for each task, and N processes, each of which runs one activity at a time: whoever is idle
gets the next one. Kill any of them at any moment: `flow` is started again, and so is a process, and another one gets its task. Kill this
program itself and start it again: each order goes on where it was. With --files DB is a folder of so many files, by `shards.py`. $FLOW
names the program, else it is ./flow."""
import argparse
import collections
import contextlib
import json
import os
import queue
import subprocess
import sys
import threading
import time

FLOW = os.environ.get("FLOW", "./flow")
HERE = os.path.dirname(os.path.realpath(__file__))
TEXT, SHARDS = os.path.join(HERE, "refund.flow"), os.path.join(HERE, "shards.py")


# What the workflow calls. One that raises has failed, and is tried again as the workflow says. One may be run twice, as when its process
# is killed: if it does something outside, let the run and the event be the key for what mustn't happen twice.
def charge(task, order, amount):
    return f"payment {order}"


def ship(task, order):
    return f"parcel {order}"


def refund(task, payment, amount):
    return amount


ACTIVITIES = {call.__name__: call for call in (charge, ship, refund)}


def report(task, **result):
    return {"run": task["run"], "event": task["event"], "attempt": task["attempt"], "at": 0, **result}


def attempt(task):
    """Runs an activity: the line that reports what it gave, or why it failed."""
    try:
        return json.dumps(report(task, do="complete", value=ACTIVITIES[task["activity"]](task, *task["args"])))
    except Exception as why:
        return json.dumps(report(task, do="fail", reason=ascii(why)[:1000]))


def do_tasks():
    """What each process does: a task a line, a report a line. What an activity prints goes to standard error."""
    tasks, reports = os.fdopen(os.dup(0)), os.fdopen(os.dup(1), "w")
    os.dup2(os.open(os.devnull, os.O_RDONLY), 0)
    os.dup2(2, 1)
    sys.stdout = sys.stderr
    for line in tasks:
        told = attempt(json.loads(line))
        try:
            print(told, file=reports, flush=True)
        except BrokenPipeError:  # the program that gave it out is gone
            os._exit(1)


def started(*words):
    return subprocess.Popen(words, stdin=subprocess.PIPE, stdout=subprocess.PIPE, encoding="utf-8")


def key_of(line):
    return line["run"], line["event"], line["attempt"]


class Flow:
    """`flow serve`, one life after the other. It replies to lines in their order; what has no reply is sent to the next life again."""

    def __init__(self, base, workers, files=0):
        self.words = [sys.executable, SHARDS, str(files), base] if files else [FLOW, "serve", base]
        self.is_over, self.in_vain = False, 0
        self.lock = threading.Lock()  # held by who writes
        self.sent = collections.deque()  # the lines without a reply, each with who waits for it
        self.tasks = queue.Queue()
        self.held = set()  # the tasks in hand: each waits, is run, or its report has no reply
        self.known = set()  # those which were in hand when this life began: it may print them once more
        self.unknown = set()  # the activities that nobody has here
        self.reported = threading.Event()
        self.child = started(*self.words)
        self.reader = threading.Thread(target=self.read, daemon=True)
        for thread in (self.reader, *(threading.Thread(target=self.work, daemon=True) for _ in range(workers))):
            thread.start()

    def write(self, line):
        with contextlib.suppress(OSError):  # that life has ended
            print(json.dumps(line), file=self.child.stdin, flush=True)

    def send(self, line, asker=None):
        with self.lock:
            self.sent.append((line, asker))
            self.write(line)

    def ask(self, do, **keys):
        """Sends a command, and returns its reply. One that is refused ends this program, and says why."""
        asker = queue.Queue()
        self.send({"do": do, **keys}, asker)
        told = asker.get()
        if told["reply"] == "refused":
            sys.exit(f"{do} is refused: {json.dumps(told)}")
        return told

    def read(self):
        while True:
            for line in self.child.stdout:
                if line.endswith("\n"):  # the last one of a life that was killed may be cut
                    self.in_vain = 0
                    self.hear(json.loads(line))
            status = self.child.wait()
            self.in_vain += status > 0  # a fault, whose number is on standard error; an earlier `flow` may have the file a moment longer
            if status == 2 or self.in_vain > 50:  # the words are wrong, or it begins in vain
                os._exit(status)
            time.sleep(0.1)
            with self.lock:
                if self.is_over:
                    return
                self.begin_again()

    def begin_again(self):
        with contextlib.suppress(OSError):
            self.child.stdin.close()
        self.child.stdout.close()
        self.child, self.known = started(*self.words), set(self.held)
        for line, _ in self.sent:
            self.write(line)

    def hear(self, told):
        if told["reply"] == "task":
            return self.take(told)
        line, asker = self.sent.popleft()
        if told["reply"] == "not applied":  # the disk is full, perhaps
            threading.Timer(1, self.send, (line, asker)).start()
        elif told.get("code") in ("E02", "E66") and line["do"] == "complete":  # no value, or not of the type that the workflow says
            self.send(report(line, do="fail", reason="wrong type"))
        elif asker:
            asker.put(told)
        else:
            self.held.discard(key_of(line))
            self.reported.set()

    def take(self, task):
        """Takes a task in hand, if it isn't and its activity is one of ours."""
        if key_of(task) in self.known:
            self.known.discard(key_of(task))
        elif task["activity"] in ACTIVITIES:
            self.held.add(key_of(task))
            self.tasks.put(task)
        elif task["activity"] not in self.unknown:
            self.unknown.add(task["activity"])
            print(f"no activity is called {task['activity']}: its tasks stay open", file=sys.stderr)

    def work(self):
        """Hands tasks to a process, one at a time. If that ends with a task in hand, another one gets it."""
        task = self.tasks.get()
        while True:
            with contextlib.suppress(OSError, ValueError), started(sys.executable, os.path.realpath(sys.argv[0]), "--do") as child:
                while True:
                    print(json.dumps(task), file=child.stdin, flush=True)
                    self.send(json.loads(child.stdout.readline()))
                    task = self.tasks.get()

    def wait(self, run):
        """Waits until a run has ended, and returns what `describe` says of it."""
        while (told := self.ask("describe", run=run))["state"] == "open":
            self.reported.wait(1)
            self.reported.clear()
        return told

    def end(self):
        """Ends it. What is open stays so, and the next life prints it again."""
        with self.lock, contextlib.suppress(OSError):
            self.is_over = True
            self.child.stdin.close()
        self.reader.join()


def main():
    words = argparse.ArgumentParser()
    words.add_argument("base")
    words.add_argument("orders", nargs="+", type=int)
    words.add_argument("--workers", type=int, default=1)
    words.add_argument("--files", type=int, default=0)
    words = words.parse_args()
    if words.workers < 1 or words.files < 0:
        sys.exit("worker.py: --workers takes 1 or more, --files 0 or more")
    flow = Flow(words.base, words.workers, words.files)
    with open(TEXT, encoding="utf-8") as file:
        text = flow.ask("register", src=file.read())["text"]
    keys = [{"flow": f"order-{order}", "req": f"order-{order}", "args": [order, 500]} for order in words.orders]
    for run in [flow.ask("start", text=text, at=0, **its)["run"] for its in keys]:
        told = flow.wait(run)
        print(told["flow"], told["state"])
    flow.end()


if __name__ == "__main__":
    do_tasks() if sys.argv[1:] == ["--do"] else main()
