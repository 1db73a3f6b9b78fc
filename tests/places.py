"""What the program shows of a place in a text: its line and column, and the line with a mark below."""
WHOLE, BESIDE = 120, 60


def place_in(says):
    """The byte that an answer names."""
    return int(says.rsplit(" ", 1)[1])


def mark(whose, text, at):
    """The lines that show a byte of a text."""
    before = text[:at]
    begun = before.rpartition(b"\n")[2]
    # A byte within a character belongs to it, and the mark stands behind: only the place behind the longest text may be such.
    column = sum(byte & 0xC0 != 0x80 for byte in begun) + 1
    line = text[len(before) - len(begun) :].partition(b"\n")[0].decode()
    first, last = 0, len(line)
    if len(line) > WHOLE:
        first, last = max(0, column - 1 - BESIDE), min(len(line), column - 1 + BESIDE)
    shown = (".." if first else "") + line[first:last] + (".." if last < len(line) else "")
    blanks = ("  " if first else "") + "".join("\t" if it == "\t" else " " for it in line[first : column - 1])
    return f"  {whose}line {before.count(bytes([10])) + 1}, column {column}\n  {shown}\n  {blanks}^\n".encode()


def marks(says, old, new):
    """Those that belong to an answer on two texts: a difference is in the new one."""
    if not says.startswith(("old: ", "new: ")):
        return mark("new: ", new, place_in(says))
    return b"".join(mark(it[:5], old if it.startswith("old") else new, place_in(it)) for it in says.splitlines())
