"""What a program holds of the heap, as bench/held.c counts it, which needs a C compiler."""
import mmap
import os
import subprocess

SOURCE = os.path.join(os.path.dirname(os.path.realpath(__file__)), "held.c")


class Held:
    """The count of the program that is started with its environment."""

    def __init__(self, folder):
        shim, path = os.path.join(folder, "held.so"), os.path.join(folder, "held")
        subprocess.run(["cc", "-O2", "-shared", "-fPIC", SOURCE, "-o", shim], check=True)
        with open(path, "wb") as it:
            it.write(bytes(mmap.PAGESIZE))
        self.environment = {**os.environ, "LD_PRELOAD": shim, "HELD": path}
        with open(path, "rb") as it:
            self.shared = mmap.mmap(it.fileno(), mmap.PAGESIZE, access=mmap.ACCESS_READ)

    def now(self):
        return int.from_bytes(self.shared[:8], "little", signed=True)
