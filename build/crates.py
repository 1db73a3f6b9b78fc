"""What crates.txt says of the crates, and whether a program is as new as the sources of those that it's made of."""
import hashlib
import os
import time

HERE = os.path.dirname(os.path.dirname(os.path.realpath(__file__)))
PARTS = ("src", "specs", "proofs")


def listed():
    """The crates of crates.txt, each with those of the repository that it names."""
    named = {}
    with open(f"{HERE}/crates.txt", encoding="utf-8") as it:
        for line in it:
            name, colon, words = line.partition("#")[0].partition(":")
            if colon:
                named[name.split()[0]] = words.split()
    return {name: [it for it in words if it in named] for name, words in named.items()}


def below(crate, uses):
    """All crates that one stands on, lowest first."""
    found = []
    for it in uses[crate]:
        found += [more for more in [*below(it, uses), it] if more not in found]
    return found


def sources(crate, ends):
    """The files that a crate and those below it are made of, of those whose names end so."""
    uses, found = listed(), []
    for name in [*below(crate, uses), crate]:
        for part in PARTS:
            for folder, _, files in os.walk(f"{HERE}/crates/{name}/{part}"):
                found += [f"{folder}/{file}" for file in files if file.endswith(ends)]
    return sorted(found)


def digest(crate, ends):
    """One number for what a crate is made of: the names and contents of these files, and which crates stand below it."""
    uses, whole = listed(), hashlib.sha256()
    for name in [*below(crate, uses), crate]:
        whole.update(f"{name}: {' '.join(uses[name])}\n".encode())
    for path in sources(crate, ends):
        with open(path, "rb") as it:
            content = it.read()
        whole.update(f"{os.path.relpath(path, HERE)} {len(content)}\n".encode())
        whole.update(content)
    return whole.hexdigest()


def note(program, made_of, read_at):
    """Notes beside a program what it was made of, and dates it by the moment at which its build began to read that."""
    with open(f"{program}.made-of", "w", encoding="utf-8") as it:
        it.write(made_of)
    os.utime(program, (read_at, read_at))


def noted(program):
    """What a program was made of, if a note says so. A note that is older than the program is of another one: `rt` leaves none."""
    try:
        if os.stat(f"{program}.made-of").st_mtime < os.stat(program).st_mtime:
            return None
        with open(f"{program}.made-of", encoding="utf-8") as it:
            return it.read()
    except FileNotFoundError:
        return None


def is_new(program, crate, ends):
    """Whether a program is there, made of the sources as they are now.

    Without a note of what it was made of no source may have a later date, nor a folder, from which one may be gone. A program that
    is found to be as new as its sources is dated anew, so that the next call of the script `flow` need look at dates alone."""
    if not os.access(program, os.X_OK):
        return False
    now, found, made_of = time.time(), digest(crate, ends), noted(program)
    if made_of is None:
        files = sources(crate, ends)
        dated = {f"{HERE}/crates.txt", *files, *map(os.path.dirname, files)}
        is_same = max(os.stat(it).st_mtime for it in dated) <= os.stat(program).st_mtime
    else:
        is_same = made_of == found
    if is_same:
        try:
            note(program, found, now)
        except OSError:
            pass
    return is_same
