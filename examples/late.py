#!/usr/bin/env python3
"""Says which open runs are late, and ends with status 1 if there are any: late.py [READY [STILL]] < lines.

It reads what `flow open DB` prints, or replies of `flow serve` to a question for open runs. A run is late if one of its activities has been
ready, or one of its timers due, for more than READY seconds (by default 600), or if nothing has happened to it for STILL seconds (a day)."""
import json
import sys
import time

ready, still = (int(it) for it in (sys.argv[1:] + ["600", "86400"][len(sys.argv) - 1 :]))
now = time.time()
late = 0


def say(run, what, since, seconds):
    global late
    if now - since / 1000 > seconds:
        late += 1
        print(f"run {run['run']}, {run['flow']}: {what} since {time.strftime('%F %T', time.gmtime(since // 1000))}")


for told in map(json.loads, sys.stdin):
    for run in told.get("runs", [told] if "run" in told else []):
        for _, name, attempt, moment in run["activities"]:
            say(run, f"{name}, attempt {attempt}, is ready", moment, ready)
        for _, moment in run["timers"]:
            say(run, "a timer is due", moment, ready)
        say(run, " ".join(["stands still", *(f"for the signal {it}" for it in run["waits"])]), run["at"], still)
sys.exit(late > 0)
