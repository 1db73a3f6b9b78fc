"""The program that the scripts drive, and the count of what was checked."""
import os
import re
import subprocess
import threading

HERE = os.path.dirname(os.path.dirname(os.path.realpath(__file__)))
FLOW = os.environ.get("FLOW", os.path.join(HERE, "crates/flow/out/flow"))


class Tally:
    """How many checks passed and how many failed. Threads share it."""

    def __init__(self):
        self.passed = self.failed = 0
        self.lock = threading.Lock()

    def check(self, what, got, wanted):
        """Counts a check, and prints it if it failed."""
        with self.lock:
            if got == wanted:
                self.passed += 1
            else:
                self.failed += 1
                print(f"{what}:\n  wanted {wanted!r:.2000}\n  got    {got!r:.2000}")


def whole(words, lines=b"", seconds=120, folder=None, **how):
    """The status of a call of the program, what it printed, and its standard error."""
    ended = subprocess.run([FLOW, *words], input=lines, capture_output=True, timeout=seconds, cwd=folder, **how)
    return ended.returncode, ended.stdout, ended.stderr


def without_reasons(says):
    """What stands on standard error but for the lines that say why, which begin with two spaces: `tests/reasons` tries those."""
    return re.sub(rb"^  .*\n", b"", says, flags=re.M)


def flow(words, lines=b"", seconds=120, folder=None):
    """The same without what is said of the cause of a fault."""
    status, printed, says = whole(words, lines, seconds, folder)
    return status, printed, without_reasons(says)


def at_once(words, line):
    """The first line that the program writes while its input is open."""
    ran = subprocess.Popen([FLOW, *words], stdin=subprocess.PIPE, stdout=subprocess.PIPE)
    late = threading.Timer(60, ran.kill)
    late.start()
    ran.stdin.write(line)
    ran.stdin.flush()
    answer = ran.stdout.readline()
    ran.stdin.close()
    ran.wait()
    late.cancel()
    return answer
