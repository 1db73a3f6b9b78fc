"""The files `tests/cases/*.texts`, `*.safe` and `*.settle`: texts, and changes from one text to another. A row is one JSON object a line.

A row of `.texts` has

    text, or hex (its bytes), or make (an expression of Python that makes it)
    says      what `flow check` prints of it: ok, or a code and the place of the byte; E93 for bytes that aren't UTF-8

and the line that registers the text is answered the same, or E02 for bytes that aren't UTF-8. A row of `.safe` or
`.settle` has

    old, new  the two texts
    says      what `flow safe` or `flow settle` prints
    args      the arguments of a run of the old text, none by default
    upgrade   what an upgrade of that run to the new text is answered: upgraded, E64 (the run has ended at once), or E68 with the
              event and its code; no run is tried if it isn't there

In all `why` says what the row shows.
"""
import json
import os

from lines import BATCHES
from places import mark, marks, place_in
from program import flow, whole


def rows(paths):
    """The rows of files, each with its file and line."""
    for path in paths:
        with open(path, encoding="utf-8") as it:
            for number, line in enumerate(it, 1):
                row = json.loads(line)
                yield f"{os.path.basename(path)}:{number} {row.get('why', '')}".rstrip(), row


def source(row):
    """The bytes of a row's text."""
    if "hex" in row:
        return bytes.fromhex(row["hex"])
    return (eval(row["make"]) if "make" in row else row["text"]).encode()


def line(**command):
    return json.dumps(command, separators=(",", ":"), ensure_ascii=False).encode() + b"\n"


def register(text):
    """The line that registers a text, also if its bytes aren't UTF-8."""
    try:
        return line(do="register", src=text.decode())
    except UnicodeDecodeError:
        return b'{"do":"register","src":"' + text + b'"}\n'


class Numbers:
    """The numbers of the texts of a store."""

    def __init__(self):
        self.known = {}

    def registered(self, text):
        number = self.known.setdefault(text, len(self.known) + 1)
        return number, b'{"reply":"registered","text":%d}\n' % number


def refused(says):
    """The reply that refuses a text of which `flow check` says this."""
    if says == "E93":
        return b'{"code":"E02","reply":"refused"}\n'
    code, place = says.split(" at ")
    return ('{"at":%s,"code":"%s","reply":"refused"}\n' % (place, code)).encode()


def checked(tally, name, text, says, path):
    """What `flow check` says of a text."""
    with open(path, "wb") as it:
        it.write(text)
    if says == "E93":
        tally.check(name, flow(["check", path]), (2, b"", b"flow: E93\n"))
    else:
        said = b"" if says == "ok" else mark("", text, place_in(says))
        tally.check(name, whole(["check", path]), (0 if says == "ok" else 1, says.encode() + b"\n", said))
    os.remove(path)


def compared(tally, what, names, found, replies, status):
    """The replies to many lines, each with the row that it answers."""
    ended, printed, fault = found
    printed = printed.splitlines(keepends=True)
    for name, got, wanted in zip(names, printed, replies):
        tally.check(f"{what}: {name}", got, wanted)
    tally.check(f"{what}: how many replies, and the end", (ended, len(printed), fault), (status, len(replies), b""))


def all_registered(tally, texts, size, base, lives):
    """All texts are registered by one program, and by as many more over the same file."""
    numbers = Numbers()
    replies = [numbers.registered(text)[1] if says == "ok" else refused(says) for _, text, says in texts]
    lines = b"".join(register(text) for _, text, _ in texts)
    names = [name for name, _, _ in texts]
    status = 1 if any(says == "E93" for _, _, says in texts) else 0
    for _ in range(lives):
        found = flow(["drive", base, "--batch", str(size)], lines)
        compared(tally, f"registering in batches of {size}", names, found, replies, status)


def asked(tally, name, call, row, old, new):
    """What `flow safe` or `flow settle` says of a change, and `flow safe` of each text without a change."""
    for path, text in ((old, row["old"]), (new, row["new"])):
        with open(path, "w", encoding="utf-8") as it:
            it.write(text)
    is_yes = row["says"] == "safe" or row["says"].startswith("settles ")
    said = b"" if is_yes else marks(row["says"], row["old"].encode(), row["new"].encode())
    tally.check(name, whole([call, old, new]), (0 if is_yes else 1, row["says"].encode() + b"\n", said))
    if "upgrade" in row:
        for path in (old, new):
            tally.check(f"{name}, no change", flow(["safe", path, path]), (0, b"safe\n", b""))
    os.remove(old)
    os.remove(new)


def upgrade(row, numbers, run):
    """The lines that begin a run of the old text and take it to the new one, and their replies."""
    old, first = numbers.registered(row["old"])
    new, second = numbers.registered(row["new"])
    lines = [
        register(row["old"].encode()),
        register(row["new"].encode()),
        line(do="start", flow=f"f{run}", req=f"q{run}", args=row.get("args", []), at=1000, text=old),
        line(do="upgrade", run=run, text=new),
    ]
    says = row["upgrade"].split()
    if says == ["upgraded"]:
        last = '{"reply":"upgraded","run":%d,"text":%d}\n' % (run, new)
    elif says == ["E64"]:
        last = '{"code":"E64","reply":"refused"}\n'
    else:
        last = '{"code":"%s","event":%s,"name":"%s","reply":"refused"}\n' % tuple(says)
    return lines, [first, second, b'{"reply":"started","run":%d}\n' % run, last.encode()]


def upgraded(tally, name, row, base):
    """An upgrade over a file that is opened again before each of its lines."""
    lines, replies = upgrade(row, Numbers(), 1)
    for it, reply in zip(lines, replies):
        tally.check(f"{name}, an upgrade", flow(["drive", base], it), (0, reply, b""))


def all_upgraded(tally, changes, size):
    """All upgrades in one store in memory."""
    numbers = Numbers()
    each = [upgrade(row, numbers, run) for run, (_, row) in enumerate(changes, 1)]
    names = [name for name, _ in changes for _ in range(4)]
    replies = [reply for _, replies in each for reply in replies]
    found = flow(["drive", "-", "--batch", str(size)], b"".join(it for lines, _ in each for it in lines))
    compared(tally, f"upgrading in batches of {size}", names, found, replies, 0)


def jobs(tally, paths, folder):
    """What is to be done for these files, each a call without arguments that may run beside the others."""
    texts = [(name, source(row), row["says"]) for name, row in rows(it for it in paths if it.endswith(".texts"))]
    changes = [(call, *row) for call in ("safe", "settle") for row in rows(it for it in paths if it.endswith("." + call))]
    upgrades = [(call, name, row) for call, name, row in changes if "upgrade" in row]
    tried = [(name, row) for _, name, row in upgrades]
    at = lambda name: os.path.join(folder, name)
    for size in BATCHES:
        if texts:
            yield lambda size=size: all_registered(tally, texts, size, "-", 1)
            yield lambda size=size: all_registered(tally, texts, size, at(f"texts{size}.db"), 2)
        if tried:
            yield lambda size=size: all_upgraded(tally, tried, size)
    for number, (name, text, says) in enumerate(texts):
        yield lambda name=name, text=text, says=says, path=at(f"text{number}"): checked(tally, name, text, says, path)
    for number, (call, name, row) in enumerate(changes):
        yield lambda call=call, name=name, row=row, old=at(f"{call}-old{number}"), new=at(f"{call}-new{number}"): asked(tally, name, call, row, old, new)
    for number, (call, name, row) in enumerate(upgrades):
        yield lambda name=name, row=row, base=at(f"{call}-upgrade{number}.db"): upgraded(tally, name, row, base)
