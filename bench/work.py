"""What bench/drive and bench/batches have in common: the program, the commands that it gets, and what a program takes."""
import json
import os
import subprocess
import tempfile
import time

HERE = os.path.dirname(os.path.dirname(os.path.realpath(__file__)))
FLOW = os.environ.get("FLOW", os.path.join(HERE, "crates/flow/out/flow"))
TEXT = 'workflow a(n: int) { activity c(int, text) -> int; let r = 0; r = call c(n, "eur"); return r + 1; }'


def commands(count):
    """One registration, then starts and reports in turn, a line each."""
    yield line({"do": "register", "src": TEXT})
    for n in range(1, count):
        run = (n + 1) // 2
        if n % 2 == 1:
            yield line({"args": [run], "at": 1000, "do": "start", "flow": f"f{run}", "req": f"q{run}", "text": 1})
        else:
            yield line({"at": 1500, "attempt": 1, "do": "complete", "event": 2, "run": run, "value": run})


def line(command):
    return json.dumps(command).encode() + b"\n"


def timed(words, given=b""):
    """What a program takes by the clock and in processor time, in seconds, and the lines that it prints."""
    with tempfile.TemporaryFile() as lines, tempfile.TemporaryFile() as printed:
        lines.write(given)
        lines.seek(0)
        began = time.monotonic()
        it = subprocess.Popen(words, stdin=lines, stdout=printed)
        _, status, used = os.wait4(it.pid, 0)
        took = time.monotonic() - began
        it.returncode = os.waitstatus_to_exitcode(status)
        if it.returncode != 0:
            raise SystemExit(f"{' '.join(words)}: status {it.returncode}")
        printed.seek(0)
        return took, used.ru_utime + used.ru_stime, printed.read().splitlines()


def are_answered(replies, count):
    """Ends where a command was refused or has no reply."""
    if len(replies) != count or any(b"refused" in reply or b"not applied" in reply for reply in replies):
        raise SystemExit("a command was refused")


def plain(folder):
    """The plain C program, compiled into a folder."""
    program = os.path.join(folder, "plain")
    subprocess.run(["cc", "-O2", "-o", program, os.path.join(HERE, "bench/plain.c"), "-lsqlite3"], check=True)
    return program
