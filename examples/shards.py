#!/usr/bin/env python3
"""Runs many files as one: shards.py N DIR [-- WORDS], where WORDS are what `flow serve` takes behind its file.

It keeps a `flow serve` over each of DIR/shard-1.db to DIR/shard-N.db, reads the lines that `flow serve` reads, and prints what it prints.
A flow is in one file, by a hash of its name, and a run is named by its file and its number there, as in `"run":"2-17"`. What is open in all
files is listed from "1-1" on. Replies come in the order of the lines, and each task once. A `flow` that ends is started again, and gets once
more the lines that it hasn't replied to.
docs/OPERATING.md says when to take it, and what it doesn't give."""
import argparse
import collections
import contextlib
import hashlib
import json
import os
import re
import select
import signal
import sqlite3
import subprocess
import sys
import time
import urllib.parse

FLOW = os.environ.get("FLOW", "./flow")
# So many lines are read ahead for each file, and so many bytes are kept for a reader that stops.
AHEAD, UNREAD = 4096, 1 << 20
PIECE = 1 << 16
# A run as it's named here, and as `flow` names it: within a text of a line each quote has a backslash before it, so this is no part of one.
NAME = re.compile(r"([1-9]\d{0,8})-([1-9]\d{0,18})")
RUN = re.compile(rb'"run":(\d+)')
TASK, NOT_APPLIED = b'"reply":"task"', b'"reply":"not applied"'
# How a list of the open runs begins, and where it goes on.
LIST = re.compile(rb'{(?:"next":(\d+),)?"reply":"open"')
# After these replies to a report its task is open still.
OPEN_STILL = (NOT_APPLIED, b'"code":"E02"', b'"code":"E66"')
NO_COMMAND, NO_RUN = b'{"code":"E02","reply":"refused"}', b'{"code":"E70","reply":"refused"}'
NONE_OPEN = b'{"reply":"open","runs":[]}'


def home(flow, count):
    """The file of a flow: the first eight hexadecimal digits of the SHA-256 of its name, modulo the number of files, plus one."""
    return int.from_bytes(hashlib.sha256(flow.encode("utf-8", "surrogatepass")).digest()[:4], "big") % count + 1


def end(why, status=3):
    print(f"shards: {why}", file=sys.stderr)
    sys.exit(status)


def rows(path, statement):
    """A column of a store that nobody has open. SQLite reads it, and writes nothing into it."""
    try:
        with contextlib.closing(sqlite3.connect(f"file:{urllib.parse.quote(path)}?mode=ro", uri=True, timeout=10)) as base:
            yield from (row[0] for row in base.execute(statement))
    except sqlite3.Error as why:
        if "no such table" not in str(why):  # a new store has none yet
            end(f"{path}: {why}")


def made(folder, count):
    """The files, of which those that were added are made. How many there are stands in shards.txt, so that one that got lost isn't taken
    for one that was added."""
    note, paths, before = os.path.join(folder, "shards.txt"), [os.path.join(folder, f"shard-{it + 1}.db") for it in range(count)], 0
    if os.path.exists(folder) and not os.path.isdir(folder):
        end(f"{folder} is no folder", 2)
    os.makedirs(folder, exist_ok=True)
    if os.path.exists(note):
        with open(note, encoding="utf-8", errors="replace") as file:
            noted = file.read().strip() or "0"
        if not noted.isdecimal():
            end(f"{note} should hold a number alone: how many files there are", 2)
        before = int(noted)
    for path in paths[:before]:
        if not os.path.exists(path):
            end(f"{path} isn't there", 2)
    if count < max(before, 1):
        end(f"{folder} takes {max(before, 1)} files or more", 2)
    if count > before:
        for path in paths[before:]:
            open(path, "ab").close()  # an empty file is an empty store
        with open(note + ".new", "w", encoding="utf-8") as file:
            print(count, file=file)
        os.replace(note + ".new", note)
    return paths


def even_texts(paths):
    """Registers in each file the texts that others have and it hasn't, as when it was added, or after a stop in between: since all get all
    texts in the same order, a text has the same number in each."""
    texts = {path: list(rows(path, "SELECT body FROM text ORDER BY num")) for path in paths}
    whole = max(texts.values(), key=len)
    for path, its in texts.items():
        if its != whole[: len(its)]:
            end(f"{path}: its texts have other numbers than elsewhere: something else has registered one")
        lines = "".join(json.dumps({"do": "register", "src": text}) + "\n" for text in whole[len(its) :])
        if lines and subprocess.run([FLOW, "drive", path], input=lines.encode(), stdout=subprocess.DEVNULL).returncode:
            end(f"{path}: a text that others have couldn't be registered")


class Line:
    """A line that came in: how many files have to reply to it, what they do, and the tasks that they print after that."""

    __slots__ = ("text", "wanted", "replies", "tasks", "is_printed", "task")

    def __init__(self, text):
        self.text, self.wanted, self.replies, self.tasks, self.is_printed = text, 1, [], b"", False
        self.task = None  # what it reports, if it's a report


class Shard:
    """A file, and its `flow serve`, one life after the other."""

    def __init__(self, number, path, words, is_last):
        self.number, self.path, self.words, self.is_last = number, path, words, is_last
        self.sent = collections.deque()  # the lines without a reply: replies come in their order
        self.held = set()  # the tasks that were printed, and no report of them was taken yet
        self.last = None  # the last line that has its reply
        self.is_done, self.in_vain = False, 0
        self.begin()

    def begin(self):
        self.child = subprocess.Popen([FLOW, "serve", self.path, *self.words], stdin=subprocess.PIPE, stdout=subprocess.PIPE, bufsize=0)
        os.set_blocking(self.child.stdin.fileno(), False)
        self.unwritten, self.rest = bytearray(b"".join(line.text for line in self.sent)), b""
        self.known = set(self.held)  # this life may print them once more, also behind their reports

    def send(self, line):
        self.sent.append(line)
        self.unwritten += line.text

    def write(self):
        try:
            del self.unwritten[: self.child.stdin.write(self.unwritten[:PIECE]) or 0]
        except BrokenPipeError:  # this life has ended; the next one gets all of it
            self.unwritten.clear()

    def named(self, told):
        """What it has printed, with runs as they're named here."""
        if head := LIST.match(told):
            return self.goes_on(head) + RUN.sub(rb'"run":"%d-\1"' % self.number, told[head.end() :])
        run = RUN.search(told)
        return b'%s"run":"%d-%s"%s' % (told[: run.start()], self.number, run[1], told[run.end() :]) if run else told

    def goes_on(self, head):
        """The head of a list of the open runs. After those of this file come those of the next one."""
        if not head[1] and self.is_last:
            return head[0]
        return b'{"next":"%d-%s","reply":"open"' % ((self.number, head[1]) if head[1] else (self.number + 1, b"1"))

    def reply(self, told):
        """Puts a reply to its line."""
        line = self.last = self.sent.popleft()
        line.replies.append(self.named(told))
        if line.task and not any(it in told for it in OPEN_STILL):
            self.held.discard(line.task)


class Shards:
    """All files: a line goes to the file of its flow or its run, and a text to all."""

    def __init__(self, count, folder, words):
        paths = made(folder, count)
        even_texts(paths)
        flows = ((flow, number) for number, path in enumerate(paths, 1) for flow in rows(path, "SELECT flow FROM run"))
        # the flows that were there before files were added: they stay where they are
        self.stayed = {flow: number for flow, number in flows if home(flow, count) != number}
        self.shards = [Shard(number, path, words, number == count) for number, path in enumerate(paths, 1)]
        self.lines, self.rest, self.is_over, self.status = collections.deque(), b"", False, 0
        self.asked = collections.deque()  # the lines whose replies aren't printed yet
        self.text = None  # a text that is being registered: nothing else is sent until all files have it
        self.out = bytearray()

    def take(self, text):
        """Sends a line where it belongs, or replies to it here."""
        line = Line(text + b"\n")
        try:
            command = json.loads(text.decode())
            do, flow, key = command.get("do"), command.get("flow"), "from" if command.get("ask") == "open" else "run"
            run = command.get(key)
        except (ValueError, AttributeError, RecursionError):
            do = flow = run = key = None
        named, to = isinstance(run, str) and NAME.fullmatch(run), []
        if do == "register":
            to, self.text = self.shards, line
        elif isinstance(flow, str):
            to = [self.shards[self.stayed.get(flow, home(flow, len(self.shards))) - 1]]
        elif named:
            number, command[key] = map(int, named.groups())
            to, line.text = self.shards[number - 1 : number], json.dumps(command).encode() + b"\n"
            line.task = (command["run"], command.get("event"), command.get("attempt")) if do in ("complete", "fail") else None
        self.asked.append(line)
        line.wanted = len(to)
        for shard in to:
            shard.send(line)
        if not to:  # a tick comes here too: each file fires its own timers
            line.wanted, line.replies = 1, [(NONE_OPEN if key == "from" else NO_RUN) if named else NO_COMMAND]

    def hear(self, shard, told):
        """What a file prints: a task, or the reply to the first of its lines that has none."""
        shard.in_vain = 0
        if TASK in told:
            self.hear_task(shard, told)
        elif shard.sent[0] is self.text and NOT_APPLIED in told:  # others may have it: here too it has to be the next one
            time.sleep(1)
            shard.send(shard.sent.popleft())
        else:
            shard.reply(told)

    def hear_task(self, shard, told):
        """A task is printed once, behind all that its file has printed before."""
        task = json.loads(told)
        key = task["run"], task["event"], task["attempt"]
        if key in shard.known:
            return shard.known.discard(key)
        shard.held.add(key)
        if shard.last is None or shard.last.is_printed:
            self.out += shard.named(told) + b"\n"
        else:
            shard.last.tasks += shard.named(told) + b"\n"

    def print_replies(self):
        """Prints the replies whose turn it is."""
        while self.asked and len(self.asked[0].replies) == self.asked[0].wanted:
            line = self.asked.popleft()
            if line is self.text and len(set(line.replies)) > 1:
                end(f"the files reply to a text in different ways: {line.replies}")
            reply, line.is_printed = line.replies[0], True
            self.out += reply + b"\n" + line.tasks
            if reply == NO_COMMAND or NOT_APPLIED in reply:
                self.status = max(self.status, 1 if reply == NO_COMMAND else 3)
            self.text = None if line is self.text else self.text

    def go_on(self):
        """Prints the replies whose turn it is, sends the lines whose turn it is, and prints the replies to those that no file gets."""
        self.print_replies()
        while self.lines and not self.text:
            self.take(self.lines.popleft())
        self.print_replies()

    def read_input(self):
        try:
            piece = os.read(0, PIECE)
        except OSError:
            piece, self.status = b"", 3
        *lines, self.rest = (self.rest + piece).split(b"\n")
        self.lines.extend(lines)
        self.is_over = not piece
        if self.is_over and self.rest:
            self.lines.append(self.rest)  # the last line needs no line feed; one that is cut off is no command

    def read_from(self, shard):
        piece = shard.child.stdout.read(PIECE)
        if not piece:
            return self.end_life(shard)
        *lines, shard.rest = (shard.rest + piece).split(b"\n")
        for told in lines:
            self.hear(shard, told)

    def end_life(self, shard):
        """Starts a file's `flow` again, unless it has done all. The last line of one that was killed may be cut: it counts for nothing."""
        status = shard.child.wait()
        shard.is_done = status >= 0 and shard.child.stdin.closed and not shard.sent
        if shard.is_done:
            self.status = max(self.status, status)
            return
        shard.in_vain += status > 0  # a fault, whose number is on standard error; an earlier `flow` may have the file a moment longer
        if status == 2 or shard.in_vain > 50:
            end(f"{shard.path}: its flow has ended with status {status}", status)
        time.sleep(0.1)
        shard.begin()

    def serve(self):
        """Goes on until the input has ended, each line has its reply, and each `flow` has ended."""
        while (live := [it for it in self.shards if not it.is_done]) or self.out:
            if self.is_over and not self.lines and not self.text:
                for shard in live:
                    if not shard.unwritten:
                        shard.child.stdin.close()
            reads = [it.child.stdout for it in live] if len(self.out) < UNREAD else []
            reads += [0] if not self.is_over and len(self.asked) + len(self.lines) < AHEAD * len(self.shards) else []
            writes = [it.child.stdin for it in live if it.unwritten] + ([1] if self.out else [])
            reads, writes, _ = select.select(reads, writes, [])
            for shard in live:
                if shard.child.stdin in writes:
                    shard.write()
                if shard.child.stdout in reads:
                    self.read_from(shard)
            if 0 in reads:
                self.read_input()
            self.go_on()
            if 1 in writes:
                del self.out[: os.write(1, self.out[:4096])]  # as much as a pipe takes where it takes something
        return self.status


def main():
    signal.signal(signal.SIGINT, signal.SIG_DFL)
    words = argparse.ArgumentParser(usage="shards.py N DIR [-- WORDS]")
    words.add_argument("count", type=int)
    words.add_argument("folder")
    words.add_argument("words", nargs="*")
    words = words.parse_args()
    try:
        sys.exit(Shards(words.count, words.folder, words.words).serve())
    except OSError as why:  # there is no program, or nobody reads any more
        end(why)


if __name__ == "__main__":
    main()
