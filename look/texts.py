"""The text of a workflow: the statements in it that can wait, which of them a run waits at, and how it's shown in colours."""
import collections
import re
from dataclasses import dataclass

from look.words import escaped

KEYWORDS = frozenset(
    "workflow activity signal let if else while call retry every sleep wait for parallel patch return fail continue as new"
    " int text len now and or not".split()
)
TOKEN = re.compile(
    r'(?P<comment>#[^\n]*)|(?P<string>"(?:[^"\\\n]|\\.)*")|(?P<word>[A-Za-z_]\w*)|(?P<number>\d+)|->|\+\+|[=!<>]=|\S'
)


@dataclass(frozen=True)
class Statement:
    """A statement that can wait. `asks` is what it does: 'call' with the activity and the numbers of its `retry`, 'wait' or 'wait for' with
    the signal, or 'sleep'. `branches` are those that it's in, each as the place of its `parallel` and its number there."""

    asks: tuple
    start: int
    end: int
    branches: tuple

    @property
    def signal(self):
        return self.asks[1] if self.asks[0] in ("wait", "wait for") else None


@dataclass(frozen=True)
class Text:
    number: int
    source: str
    name: str
    statements: tuple


@dataclass
class Block:
    """A block that is open: of a `parallel` the number of its branches so far, and of a branch which one it is."""

    at: int
    is_parallel: bool
    branch: tuple
    branches: int = 0


class Reader:
    """Finds the statements that can wait. It reads programs that the store has taken, and so asks nothing of their grammar."""

    def __init__(self, source):
        self.tokens = [it for it in TOKEN.finditer(source) if it.lastgroup != "comment"]
        self.words = [it[0] for it in self.tokens]
        self.blocks = []

    def statements(self):
        readers = {"call": self.call, "wait": self.wait, "sleep": self.sleep}
        for at, word in enumerate(self.words):
            if word == "{":
                self.open_block(at)
            elif word == "}":
                self.blocks.pop()
            elif word in readers:
                asks, first, last = readers[word](at)
                branches = tuple(it.branch for it in self.blocks if it.branch)
                yield Statement(asks, self.tokens[first].start(), self.tokens[last].end(), branches)

    def open_block(self, at):
        around = self.blocks[-1] if self.blocks else None
        branch = None
        if around and around.is_parallel:
            around.branches += 1
            branch = (around.at, around.branches)
        self.blocks.append(Block(at, self.words[at - 1] == "parallel", branch))

    def closing(self, at):
        """The token that closes the bracket at this one."""
        depth = 0
        while True:
            depth += (self.words[at] == "(") - (self.words[at] == ")")
            if not depth:
                return at
            at += 1

    def call(self, at):
        last, retry = self.closing(at + 2), (1, 0)
        if self.words[last + 1] == "retry":
            retry, last = (int(self.words[last + 2]), int(self.words[last + 4])), last + 4
        return ("call", self.words[at + 1], retry), at - 2, last

    def wait(self, at):
        if self.words[at + 3] == "for":
            return ("wait for", self.words[at + 2]), at - 2, self.words.index("else", at) - 1
        return ("wait", self.words[at + 2]), at - 2, at + 2

    def sleep(self, at):
        return ("sleep",), at, self.words.index(";", at) - 1


def text_of(number, source):
    reader = Reader(source)
    return Text(number, source, reader.words[1], tuple(reader.statements()))


def are_beside(one, other):
    """Whether a run can wait at both statements at once: they are in two branches of one `parallel`."""
    return any(mine[0] == its[0] and mine != its for mine, its in zip(one.branches, other.branches))


def waits_of(run, statements):
    """The statements at which an open run waits, and those of which it waits at some.

    Rows say what is open, and not where in the text: as many statements that ask for this as there are open ones are exact, more of them
    aren't. A replay would know.
    """
    tasks = collections.Counter(("call", it.body["activity"], (it.body["tries"], it.body["every"])) for it in run.tasks.values())
    groups = [(count, [it for it in statements if it.asks == asks]) for asks, count in tasks.items()]
    groups.append((len(run.timers), [it for it in statements if it.asks[0] in ("sleep", "wait for")]))
    endless = [it for it in statements if it.asks[0] == "wait"]
    if not run.tasks and not run.timers:
        groups.append((1, endless))
    certain = [it for count, fitting in groups if count == len(fitting) for it in fitting]
    possible = [it for count, fitting in groups if 0 < count < len(fitting) for it in fitting]
    if run.tasks or run.timers:
        possible += [it for it in endless if all(are_beside(it, other) for other in certain)]
    return certain, possible


def line_of(source, statement):
    return source.count("\n", 0, statement.start) + 1


def marks(certain, possible):
    """The class of each statement that is marked, by where it begins, and where these statements end."""
    kinds = {it.start: kind for kind, statements in (("at", certain), ("may", possible)) for it in statements}
    return kinds, {it.end for it in (*certain, *possible)}


def coloured(source, certain=(), possible=()):
    """A text in HTML: its keywords, quoted texts and comments in colours, and the statements marked at which a run waits, or may wait."""
    (kinds, ends), parts, last = marks(certain, possible), [], 0
    for token in TOKEN.finditer(source):
        before = f"<mark class={kinds[token.start()]}>" if token.start() in kinds else ""
        after = "</mark>" if token.end() in ends else ""
        kind = "word" if token[0] in KEYWORDS else token.lastgroup if token.lastgroup in ("comment", "string") else ""
        shown = escaped(token[0], "\t")
        parts += [escaped(source[last : token.start()], "\t\n"), before, f"<i class={kind}>{shown}</i>" if kind else shown, after]
        last = token.end()
    return "".join(parts) + escaped(source[last:], "\t\n")
