"""The history of a run as a picture along time: a lane for each activity, timer, signal and marker, below that of the run itself."""
import itertools
import math
from dataclasses import dataclass

from look.store import Kind
from look.words import call, counted, date, duration, escaped, shortened

MOST_LANES = 120
LANE = 24
# The moments of a picture are named if so many hundredths of its width lie between two of them.
APART = 24


@dataclass(frozen=True)
class Stroke:
    """A bar from a moment to another one. `style` is its class in the page's style, `says` what is shown if one points at it."""

    style: str
    begin: int
    end: int
    says: str


@dataclass(frozen=True)
class Mark:
    shape: str
    at: int


@dataclass(frozen=True)
class Lane:
    label: str
    note: str
    strokes: tuple = ()
    marks: tuple = ()

    def moments(self):
        return {it for stroke in self.strokes for it in (stroke.begin, stroke.end)} | {mark.at for mark in self.marks}


def outcome(run):
    """What a closed run ended with."""
    body = run.events[-1].body
    if run.state == "completed":
        return "→ " + shortened(body["value"])
    if run.state == "continued":
        return "→ " + call("new", body["args"])
    return f"{body.get('cause', '')} {body['text']}".strip()


def open_activity(event, task, now):
    """An activity that is open. Of its attempts before, the store has the number alone; the last of them failed `every` before `ready`."""
    body, strokes = event.body, []
    if task.attempt > 1:
        failed = max(event.at, task.ready - body["every"])
        strokes = [
            Stroke("tried", event.at, failed, counted(task.attempt - 1, "failed attempt")),
            Stroke("pause", failed, task.ready, "pause"),
        ]
    if now > task.ready:
        strokes.append(Stroke("open", task.ready, now, f"attempt {task.attempt}"))
    note = f"attempt {task.attempt} of {body['tries']}" if task.attempt > 1 else ""
    if task.ready > now:
        note = f"{note}, ready in {duration(task.ready - now)}".removeprefix(", ")
    return Lane(call(body["activity"], body["args"]), note or f"open for {duration(now - task.ready)}", tuple(strokes))


def past_activity(event, closing, end):
    """An activity that gave its value, failed for good, or was dropped with its run."""
    body, until, style, gave, tried = event.body, end, "dropped", "given up", ""
    if closing and closing.kind == Kind.ActivityTaskCompleted:
        until, style, gave = closing.at, "done", "→ " + shortened(closing.body["value"])
    elif closing:
        until, style, gave, tried = closing.at, "failed", f"✕ {closing.body['text']}", f" ({counted(body['tries'], 'attempt')})"
    note = f"{duration(until - event.at)} {gave}{tried}"
    return Lane(call(body["activity"], body["args"]), note, (Stroke(style, event.at, until, gave),))


def open_timer(event, now):
    """A timer that is open: thin up to now or to its due moment, then dashed if that is ahead, and thick if it has passed."""
    due = event.body["due"]
    is_ahead = due > now
    note = ("due in " if is_ahead else "overdue by ") + duration(abs(now - due))
    strokes = (
        Stroke("timer open", event.at, min(now, due), f"due {date(due)}"),
        Stroke("ahead" if is_ahead else "late", min(now, due), max(now, due), note),
    )
    return Lane(f"timer of {duration(due - event.at)}", note, strokes, (Mark("dot open", due),))


def past_timer(event, closing, end):
    """A timer that fired, was canceled, or was dropped with its run."""
    due, how = event.body["due"], "dropped"
    if closing:
        how = "fired" if closing.kind == Kind.TimerFired else "canceled"
    until = closing.at if closing else min(end, due)
    stroke = Stroke(f"timer {how}", event.at, until, f"due {date(due)}")
    return Lane(f"timer of {duration(due - event.at)}", how, (stroke,), (Mark(f"dot {how}", until),))


def lane_of(run, event, closing, now):
    """The lane of an event that begins one, else None."""
    body, end = event.body, now if run.is_open else run.moved
    if event.kind == Kind.WorkflowExecutionSignaled:
        return Lane(f"signal {body['name']}", shortened(body["value"]), marks=(Mark("gem", event.at),))
    if event.kind == Kind.MarkerRecorded:
        return Lane(f"patch {shortened(body['patch'])}", "new side", marks=(Mark("flag", event.at),))
    if event.kind == Kind.ActivityTaskScheduled:
        task = run.tasks.get(event.number)
        return open_activity(event, task, now) if task else past_activity(event, closing, end)
    if event.kind == Kind.TimerStarted:
        return open_timer(event, now) if event.number in run.timers else past_timer(event, closing, end)
    return None


def lanes(run, now):
    """The lanes of a run in the order in which they began: first its own."""
    closings = {it.body["of"]: it for it in run.events if "of" in it.body}
    until = now if run.is_open else run.moved
    whole = Stroke(f"whole {run.state}", run.began, until, run.state)
    others = (lane_of(run, it, closings.get(it.number), now) for it in run.events)
    return [Lane(call("start", run.events[0].body["args"]), "" if run.is_open else outcome(run), (whole,)), *filter(None, others)]


def scale(moments):
    """Where each moment stands, in hundredths of the width. A pause that is a thousand times as long is drawn some ten times as long, so
    that a second and a month stand in one picture."""
    moments = sorted(moments)
    steps = [after - before for before, after in zip(moments, moments[1:])]
    least = max(min(steps, default=1), (moments[-1] - moments[0]) / 4096, 1)
    widths = [1 + math.log2(max(1, step / least)) for step in steps]
    whole = sum(widths) or 1
    return {moment: 2 + 96 * place / whole for moment, place in zip(moments, itertools.accumulate(widths, initial=0))}


def grid(run, now, places, height):
    """Lines through the lanes at some moments, with how long after the start they are."""
    named, drawn = [], []
    for moment in sorted(places, key=lambda it: (it not in (run.began, now), places[it])):
        place = places[moment]
        if any(abs(place - it) < APART for it in named):
            continue
        named.append(place)
        is_now = run.is_open and moment == now
        says = "start" if moment == run.began else "now" if is_now else "+" + duration(moment - run.began)
        side = "end" if place > 93 else "start" if place < 5 else "middle"
        drawn.append(
            f'<line class={"now" if is_now else "grid"} x1={place:.4g}% x2={place:.4g}% y1=20 y2={height + LANE} />'
            f"<text x={place:.4g}% y=13 text-anchor={side}>{says}</text>"
        )
    return "".join(drawn)


def drawn_lane(lane, places, y):
    strokes = (
        f'<line class="{it.style}" x1={places[it.begin]:.4g}% x2={places[it.end]:.4g}% y1={y} y2={y}>'
        f"<title>{escaped(f'{it.says}, {duration(it.end - it.begin)} from {date(it.begin)}')}</title></line>"
        for it in lane.strokes
    )
    marks = (f'<use href=#{it.shape.split()[0]} class="{it.shape}" x={places[it.at]:.4g}% y={y} />' for it in lane.marks)
    return "".join((*strokes, *marks))


def picture(run, now):
    """The picture of a run in HTML: the labels of its lanes, the lanes, and a note for each."""
    every = lanes(run, now)
    shown = every if len(every) <= MOST_LANES else every[:1] + every[1 - MOST_LANES :]
    moments = set().union(*(it.moments() for it in shown)) | {run.began} | ({now} if run.is_open else set())
    places, height = scale(moments), LANE * len(shown)
    drawn = "".join(drawn_lane(lane, places, 36 + LANE * at) for at, lane in enumerate(shown))
    labels, notes = ("".join(f"<li>{escaped(it)}" for it in column) for column in zip(*((lane.label, lane.note) for lane in shown)))
    more = len(every) - len(shown)
    left_out = f"<p class=dim>{counted(more, 'earlier lane')} left out of the picture.</p>" if more else ""
    return (
        f"{left_out}<div class=chart><ol>{labels}</ol>"
        f'<svg height={height + 26} role=img aria-label="history of run {run.number} along time">'
        f"{grid(run, now, places, height)}{drawn}</svg><ol class=notes>{notes}</ol></div>"
    )
