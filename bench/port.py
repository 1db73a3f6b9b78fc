"""The store of `flow` alone, as a program: bench/port.rt.txt, which `rt` proves and builds in a folder of its own."""
import os
import shutil
import subprocess
import sys
import tempfile


def port():
    """The program that is the store alone, built where it isn't yet."""
    source, top = os.path.join(os.path.dirname(os.path.realpath(__file__)), "port.rt.txt"), os.path.join(tempfile.gettempdir(), "flow-bench-port")
    crate = os.path.join(top, "crates/port")
    program = os.environ.get("PORT", os.path.join(crate, "out/port"))
    if not os.path.exists(program) or os.path.getmtime(program) < os.path.getmtime(source):
        os.makedirs(os.path.join(crate, "src"), exist_ok=True)
        shutil.copy(source, os.path.join(crate, "src/main.rt"))
        with open(os.path.join(top, "crates.txt"), "w", encoding="utf-8") as it:
            it.write("port: sqlite\n")
        # without words it ends at once, with a status of its own
        subprocess.run(["rt", "run"], cwd=crate, stdin=subprocess.DEVNULL, stdout=sys.stderr)
    return program
