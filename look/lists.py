"""The lists of a page: its runs, each a line that unfolds into its picture, its text and its events, and its texts."""
import collections
import time

from look.picture import outcome, picture
from look.store import ENDS
from look.texts import coloured, line_of, waits_of
from look.words import MINUTE, counted, date, duration, escaped

A_SECTION = 100
# How many runs have their text beside them; for the others there are its statements at which they wait, and a link to the text.
TEXTS_BESIDE = 300
LATE = MINUTE
MOST_EVENTS = 2_046
# Before this moment of 1973 no store of a real clock begins, but those of examples and tests do.
REAL_CLOCK = 10**11
HEAD = (
    "<div class=head><span>state</span><span>flow</span><span>text</span><span>{}</span><span>last event</span><span>run</span></div>"
)


class View:
    """A store seen from a moment: that of the clock, but the last one of the store if its moments are those of a test."""

    def __init__(self, store, now):
        last = max((it.moved for it in store.runs), default=0)
        self.store = store
        self.now = now if now is not None else last if last < REAL_CLOCK else int(time.time() * 1000)
        self.open = sorted((it for it in store.runs if it.is_open), key=lambda it: it.moved)
        self.closed = sorted((it for it in store.runs if not it.is_open), key=lambda it: -it.moved)
        self.late = {it.number for it in self.open if it.is_late(self.now, LATE)}
        self.with_text = {it.number for it in (self.open + self.closed)[:TEXTS_BESIDE]}


def awaited(run, certain, possible, now):
    """What an open run waits for, in a few words."""
    words = []
    for task in run.tasks.values():
        attempt = f", attempt {task.attempt} of {task.body['tries']}" if task.attempt > 1 else ""
        ready = f", ready in {duration(task.ready - now)}" if task.ready > now else ""
        words.append(task.body["activity"] + attempt + ready)
    words += [f"timer {'due in' if due > now else 'overdue by'} {duration(abs(due - now))}" for due in run.timers.values()]
    for statements, perhaps in ((certain, ""), (possible, "perhaps ")):
        signals = dict.fromkeys(it.signal for it in statements if it.signal)
        words += [f"{perhaps}signal {' or '.join(signals)}"] if signals else []
    return " · ".join(words)


def chain(run):
    """Links to the first and the last run of a chain, and to those next to this one."""
    if len(run.chain) == 1:
        return ""
    at = run.chain.index(run.number)
    near = dict.fromkeys([run.chain[0], *run.chain[max(0, at - 2) : at + 3], run.chain[-1]])
    links = " → ".join(f"<b>{it}</b>" if it == run.number else f"<a href=#r{it}>{it}</a>" for it in near)
    return f"<p>One of {len(run.chain):,} runs, each continued as the next: {links}</p>"


def lines_of(source, certain, possible):
    """At which lines of its text a run waits."""
    words = []
    for statements, says in ((certain, "at line"), (possible, "perhaps at line")):
        lines = sorted({line_of(source, it) for it in statements})
        words += [f"{says} {', '.join(map(str, lines))}"] if lines else []
    return "waits " + ", ".join(words) if words else ""


def text_beside(run, text, certain, possible, is_whole):
    """The text of a run with the statements marked at which it waits, or these alone."""
    link = f"<p><a href=#t{run.text}>Text {run.text}</a>, {escaped(text.name)} <em>{lines_of(text.source, certain, possible)}</em></p>"
    if is_whole:
        return f"{link}<pre>{coloured(text.source, certain, possible)}</pre>"
    return link + "".join(f"<pre>{coloured(text.source[it.start:it.end])}</pre>" for it in (*certain, *possible))


def facts(run, now):
    """When a run began, how, for how long it has been open, and how long its history is."""
    request = f" by request <bdi>{escaped(run.request)}</bdi>" if run.request else ""
    took = f"open for {duration(now - run.began)}" if run.is_open else f"took {duration(run.moved - run.began)}"
    events = counted(len(run.events), "event")
    return f"<p>Started {date(run.began)}{request}, {took}, last event {date(run.moved)}. {events} of {MOST_EVENTS:,}.</p>"


def events_of(run):
    lines = (f"{'+' + duration(it.at - run.began):>12}  {it.number:>4} {it.kind.name} {it.row}" for it in run.events)
    return escaped("\n".join(lines), "\n")


def line_and_more(run, view):
    """A run in HTML."""
    text, now = view.store.texts[run.text], view.now
    certain, possible = waits_of(run, text.statements) if run.is_open else ((), ())
    waits = awaited(run, certain, possible, now) if run.is_open else outcome(run)
    is_late = run.number in view.late
    found_by = escaped(f"#{run.number} {run.flow} {text.name} {waits}".lower())
    beside = text_beside(run, text, certain, possible, run.number in view.with_text)
    return (
        f'<details class=run data-s="{run.state}{" late" if is_late else ""}" data-f="{found_by}">'
        f'<summary><b class="state {run.state}">{run.state}</b><span class=flow>{escaped(run.flow)}</span><span>{escaped(text.name)}</span>'
        f'<span class="waits {"late" if is_late else run.state}">{escaped(waits)}</span>'
        f'<time title="{date(run.moved)}">{duration(now - run.moved)} ago</time><span class=n>{run.number}</span></summary>'
        f"<div class=more id=r{run.number}><div>{facts(run, now)}{chain(run)}{picture(run, now)}"
        f"<details><summary>Events</summary><pre>{events_of(run)}</pre></details></div>"
        f"<div class=text>{beside}</div></div></details>"
    )


def sections(runs, title, column, view):
    """A list of runs, a hundred in a section, of which the first is unfolded."""
    parts = [f"<h2>{title} <span class=dim>{len(runs):,}</span></h2>"]
    for first in range(0, len(runs), A_SECTION):
        part = runs[first : first + A_SECTION]
        says = f"{first + 1:,} to {first + len(part):,}, last event {date(part[0].moved)} to {date(part[-1].moved)}"
        lines = "".join(line_and_more(it, view) for it in part)
        parts.append(f"<details class=page{'' if first else ' open'}><summary>{says}</summary>{HEAD.format(column)}{lines}</details>")
    return "".join(parts)


def counts(view, states):
    """How many runs are in each state."""
    shown = "".join(f'<li><b class="state {it}">{states[it]:,}</b> {it}' for it in ("open", *ENDS.values()) if states[it])
    late = f'<li><b class="state late">{len(view.late):,}</b> late: an activity is ready, or a timer due, for over a minute'
    return f"<ul class=counts>{shown}{late if view.late else ''}</ul>"


def find(view, states):
    """The form that finds runs. It's hidden until the page's script works it."""
    names = ["open"] * bool(states["open"]) + ["late"] * bool(view.late) + [it for it in ENDS.values() if states[it]]
    options = "".join(f"<option>{it}" for it in names)
    return (
        '<form name=find hidden><input type=search name=q placeholder="flow, text, or what it waits for" aria-label=find>'
        f'<select name=s aria-label=state><option value="">every state{options}</select><output name=n></output></form>'
    )


def texts(view):
    """All registered texts, each with how many open runs it has."""
    users = collections.Counter(it.text for it in view.open)
    return "".join(
        f"<details id=t{it.number}><summary><b>{it.number}</b> {escaped(it.name)}"
        f" <span class=dim>{counted(users[it.number], 'open run')}</span></summary><pre>{coloured(it.source)}</pre></details>"
        for it in view.store.texts.values()
    )


def inside(store, now):
    """What a page shows of a store, in HTML."""
    view, states = View(store, now), collections.Counter(it.state for it in store.runs)
    verified = "" if store.is_verified else " This program has no <code>verify</code>: nobody has judged whether the store is whole."
    return (
        f"<p class=dim>As of {date(view.now)} UTC.{verified}</p>{counts(view, states)}{find(view, states)}"
        f"{sections(view.open, 'Open, those that wait longest first', 'waits for', view)}"
        f"{sections(view.closed, 'Closed, the latest first', 'ended with', view)}<h2>Texts</h2>{texts(view)}"
    )
