"""How batches are applied, beside what every case shows: which lines they have, and when their replies are written."""
import os

from lines import BAD, BATCHES
from program import HERE, at_once, flow

REGISTER = b'{"do":"register","src":"workflow e() {}"}\n'
REGISTERED = b'{"reply":"registered","text":1}\n'


def payment(tally):
    with open(os.path.join(HERE, "examples/payment.jsonl"), "rb") as it:
        lines = it.read()
    for size in BATCHES[1:]:
        tally.check(f"the payment in batches of {size}", flow(["drive", "-", "--batch", str(size)], lines), flow(["drive", "-"], lines))


def written_at_once(tally):
    tally.check("a bad line where no batch is begun", at_once(["drive", "-", "--batch", "3"], b"x\n"), BAD + b"\n")
    tally.check("a batch that is full", at_once(["drive", "-", "--batch", "2"], REGISTER + REGISTER), REGISTERED)


def jobs(tally, folder):
    yield lambda: payment(tally)
    yield lambda: written_at_once(tally)
