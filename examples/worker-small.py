#!/usr/bin/env python3
"""Pays an order, with activities of your own: worker-small.py DB ORDER. It reads a line, does what it says, writes a line, and reads on.
Kill it or its `flow` at any moment, and start it again: the order goes on where it was. $FLOW names the program, else it is ./flow."""
import contextlib
import json
import os
import subprocess
import sys
import time

# What the workflow calls. One that raises has failed, and is tried again as the workflow says. One may be run twice.
ACTIVITIES = {
    "charge": lambda order, amount: f"payment {order}",
    "ship": lambda order: f"parcel {order}",
    "refund": lambda payment, amount: amount,
}
if len(sys.argv) != 3 or not sys.argv[2].isdecimal():
    sys.exit("usage: worker-small.py DB ORDER, a number")
base, order = sys.argv[1:]
flow = subprocess.Popen([os.environ.get("FLOW", "./flow"), "serve", base], stdin=subprocess.PIPE, stdout=subprocess.PIPE, encoding="utf-8")
sent = []  # the lines that have no reply yet: replies come in their order


def send(**line):
    print(json.dumps(line), file=flow.stdin, flush=True)
    sent.append(line)


def report(task, **result):
    send(**{key: task[key] for key in ("run", "event", "attempt")}, at=0, **result)


def run(task):
    try:
        report(task, do="complete", value=ACTIVITIES[task["activity"]](*task["args"]))
    except Exception as why:
        report(task, do="fail", reason=ascii(why)[:1000])
    send(do="describe", run=task["run"])


def hear(told, line):
    if told["reply"] == "not applied":
        time.sleep(1)
        send(**line)
    elif told.get("code") in ("E02", "E66") and line["do"] == "complete":
        report(line, do="fail", reason="wrong type")
    elif told["reply"] == "refused" and line["do"] in ("register", "start"):
        sys.exit(f"{line['do']} is refused: {json.dumps(told)}")
    elif line["do"] == "register":
        send(do="start", text=told["text"], flow=f"order-{order}", req=f"order-{order}", args=[int(order), 500], at=0)
    elif line["do"] == "start":
        send(do="describe", run=told["run"])


with contextlib.suppress(BrokenPipeError):
    send(do="register", src=open(f"{sys.path[0]}/refund.flow", encoding="utf-8").read())
    for told in map(json.loads, flow.stdout):
        if told["reply"] != "task":
            hear(told, sent.pop(0))
        elif told["activity"] in ACTIVITIES:
            run(told)
        else:
            print(f"no activity is called {told['activity']}: its task stays open", file=sys.stderr)
        if told.get("flow") == f"order-{order}" and told.get("state", "open") != "open":
            flow.communicate()
            sys.exit(print(told["flow"], told["state"]))
sys.exit("flow has ended: start this again")
