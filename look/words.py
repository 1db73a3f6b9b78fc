"""Moments, values and texts of a store as a page says them."""
import html
import itertools
import json
import re
import time

# What isn't seen, and what turns the line round: it is spelled out, so that a name shows what it is.
UNSEEN = re.compile(r"[\x00-\x1f\x7f-\x9f\u200b-\u200f\u2028-\u202e\u2060-\u2069\ufeff\ud800-\udfff]")
SECOND, MINUTE, HOUR, DAY = 1_000, 60_000, 3_600_000, 86_400_000


def escaped(value, kept=""):
    """A text of the store, safe in HTML, also between quotes."""
    return html.escape(UNSEEN.sub(lambda it: it[0] if it[0] in kept else f"\\u{ord(it[0]):04x}", str(value)))


def shortened(value, most=60):
    """A value as JSON, cut off if it's long."""
    text = json.dumps(value, ensure_ascii=False)
    return text if len(text) <= most else text[:most] + "…"


def call(name, arguments):
    shown = [shortened(it, 24) for it in arguments[:4]] + ["…"] * (len(arguments) > 4)
    return f"{name}({', '.join(shown)})"


def duration(milliseconds):
    """A duration by its two largest units."""
    rest = max(0, milliseconds)
    if rest < MINUTE:
        return f"{rest} ms" if rest < SECOND else f"{rest / SECOND:.3g} s"
    units = ((rest // DAY, "d"), (rest // HOUR % 24, "h"), (rest // MINUTE % 60, "m"), (rest // SECOND % 60, "s"))
    largest = list(itertools.dropwhile(lambda unit: not unit[0], units))[:2]
    return " ".join(f"{count} {unit}" for count, unit in largest if count)


def date(moment):
    """A moment in UTC; one that no calendar has, as a number."""
    try:
        return time.strftime("%Y-%m-%d %H:%M:%S", time.gmtime(moment // SECOND))
    except (OverflowError, ValueError, OSError):
        return f"{moment} ms"


def counted(count, what):
    return f"{count:,} {what}" + ("" if count == 1 else "s")
