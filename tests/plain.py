"""A program or the tests of a crate, built without their proofs in the fast form: what `rt try` would run, compiled with -O1."""
import importlib.util
import os
import shutil
import subprocess
import sys
import time

HERE = os.path.dirname(os.path.dirname(os.path.realpath(__file__)))
sys.path.insert(0, f"{HERE}/build")
_spec = importlib.util.spec_from_file_location("builder", f"{HERE}/build/program.py")
builder = importlib.util.module_from_spec(_spec)
_spec.loader.exec_module(builder)


def lower(crate, words, room):
    """Has `rt try` make the module of a crate with these words, takes it and ends `rt try`."""
    folder, module, log = f"{room}/lower", f"{room}/module.bc", f"{room}/build.log"
    os.makedirs(folder)
    with open(log, "ab") as said:
        how = {"stdin": subprocess.DEVNULL, "stdout": said, "stderr": said, "start_new_session": True}
        step = subprocess.Popen(["rt", "try", *words], cwd=f"{HERE}/crates/{crate}", env={**os.environ, "TMPDIR": folder}, **how)
    found = None
    while not found and step.poll() is None:
        found = builder.whole_module(folder)
        time.sleep(0.2)
    if not found:
        sys.exit(f"`rt try` has left no module of {crate} to compile; what it printed is in {log}")
    os.link(found, module)
    step.terminate()
    step.wait()
    builder.ROOM = room
    builder.end_all()
    shutil.rmtree(folder, ignore_errors=True)
    return module


def built(crate, words):
    """The path of the program that `rt try` with these words would run, in a folder of its own below out/."""
    room = f"{HERE}/crates/{crate}/out/growth"
    shutil.rmtree(room, ignore_errors=True)
    os.makedirs(room)
    module, made, kit = lower(crate, words, room), f"{room}/program", builder.kit()
    subprocess.run([f"{kit}/toolchain/bin/clang", "-c", "-x", "ir", module, "-o", f"{made}.o", "-fPIE", "-O1"], check=True)
    libraries = [f"{kit}/c/libos_c.a", f"{kit}/c/liblibc_c.a"]
    link = [f"{kit}/bin/rattle-link", "--target", "x86_64-unknown-linux-gnu", "--toolchain", f"{kit}/toolchain", "-o", made, f"{made}.o"]
    subprocess.run([*link, *libraries], check=True)
    return made
