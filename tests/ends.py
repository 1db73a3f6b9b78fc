"""Inputs and outputs that fail: what `flow drive` writes until then, what it says, and its status."""
import os
import resource
import signal
import subprocess

from program import FLOW

ASKS = b'{"do":"history","run":1}\nx\n'
REFUSED = b'{"code":"E70","reply":"refused"}\n'
# the reply to the second line has no room behind so many bytes
ROOM = 39


def called(words, **streams):
    """The status of a call with such streams, and its standard error where nobody else has it."""
    given = {"stdin": subprocess.DEVNULL, "stdout": subprocess.DEVNULL, "stderr": subprocess.PIPE, "timeout": 120, **streams}
    ended = subprocess.run([FLOW, *words], **given)
    return ended.returncode, ended.stderr


def small_files():
    """What is written to a file behind its room is refused, and no signal says so."""
    signal.signal(signal.SIGXFSZ, signal.SIG_IGN)
    resource.setrlimit(resource.RLIMIT_FSIZE, (ROOM, ROOM))


def input_fails(tally, folder):
    at = os.open(folder, os.O_RDONLY)
    status, says = called(["drive", "-"], stdin=at)
    os.close(at)
    tally.check("an input that can't be read", (status, says), (3, b"flow: E94\n"))


def output_fills(tally, folder):
    path = os.path.join(folder, "asks")
    with open(path, "wb") as it:
        it.write(ASKS)
    paper = os.path.join(folder, "paper")
    with open(path, "rb") as lines, open(paper, "wb") as out:
        status, says = called(["drive", "-"], stdin=lines, stdout=out, preexec_fn=small_files)
    with open(paper, "rb") as it:
        tally.check("an output that fills up", it.read(), (REFUSED + b'{"code":"E02","reply":"refused"}\n')[:ROOM])
    tally.check("an output that fills up, its end", (status, says), (3, b"flow: E95\n"))


def output_is_closed(tally):
    reads, writes = os.pipe()
    os.close(reads)
    status, says = called(["history", "-", "1"], stdout=writes)
    tally.check("no output is needed", (status, says), (1, b"flow: E70\n"))
    for words in (["check", "/dev/null"], ["safe", "/dev/null", "/dev/null"], ["verify", "-"]):
        tally.check(f"{words} with an output that is closed", called(words, stdout=writes), (3, b"flow: E95\n"))
    os.close(writes)


def errors_fail(tally, folder):
    """What can't be said keeps its status."""
    base = os.path.join(folder, "ours.db")
    subprocess.run([FLOW, "drive", base], stdin=subprocess.DEVNULL, check=True, timeout=120)
    with open("/dev/full", "wb") as full:
        for words, status in ((["history", base, "1"], 1), (["drive", folder], 3), (["drive"], 2)):
            tally.check(f"{words} with no room for its fault", called(words, stderr=full)[0], status)


def reply_is_lost(tally, folder):
    """The reply to a start has no room. The run is there, and the same start finds it."""
    base = os.path.join(folder, "lost.db")
    register = b'{"do":"register","src":"workflow e() {}"}\n'
    start = b'{"args":[],"at":0,"do":"start","flow":"f","req":"q1","text":1}\n'

    def driven(line, **streams):
        return subprocess.run([FLOW, "drive", base], input=line, stderr=subprocess.DEVNULL, timeout=120, **streams)

    tally.check("a text for a lost reply", driven(register, stdout=subprocess.PIPE).stdout, b'{"reply":"registered","text":1}\n')
    with open("/dev/full", "wb") as full:
        tally.check("a reply with no room", driven(start, stdout=full).returncode, 3)
    again = driven(start, stdout=subprocess.PIPE)
    tally.check("the start whose reply was lost", (again.stdout, again.returncode), (b'{"reply":"duplicate","run":1}\n', 0))


def jobs(tally, folder):
    yield lambda: input_fails(tally, folder)
    yield lambda: output_fills(tally, folder)
    yield lambda: output_is_closed(tally)
    yield lambda: errors_fail(tally, folder)
    yield lambda: reply_is_lost(tally, folder)
