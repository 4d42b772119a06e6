"""Ctrl-C at a terminal, which tells each process of the program: what was found is written, and no worker complains."""
import os
import pathlib
import pty
import select
import shutil
import sys
import tempfile
import time

try:
    import numpy as np
    from PIL import Image
except ImportError:
    print("Ctrl-C at a terminal: numpy or Pillow is missing, not tried (Debian: apt-get install python3-numpy python3-pil)")
    sys.exit(0)

LABEL = """
import numpy as np
import gco_proved as gco
data = np.random.default_rng(1).integers(0, 100, (512, 512, 64))
try:
    print("begun", flush=True)
    gco.label(data, gco.linear(64, 20), gco.grid_pairs(512, 512, 9))
    print("whole")
except KeyboardInterrupt as stop:
    print("partial", stop.partial is not None and not stop.partial.settled)
"""


def at_a_terminal(words, seen, wait=0):
    """Python with these words at a terminal of its own, which gets Ctrl-C so many seconds after it says what is awaited: its status, what it
    said, and the seconds from Ctrl-C to its end."""
    child, terminal = pty.fork()
    if not child:
        os.execv(sys.executable, [sys.executable, *map(str, words)])
    told, sent, limit = "", None, time.monotonic() + 240
    while time.monotonic() < limit:
        if sent is None and seen in told:
            time.sleep(wait)
            os.write(terminal, b"\x03")
            sent = time.monotonic()
        if select.select([terminal], [], [], 0.2)[0]:
            try:
                told += os.read(terminal, 4096).decode(errors="replace")
            except OSError:  # its end was closed
                break
    spent = time.monotonic() - (sent or 0)
    _, status = os.waitpid(child, 0)
    os.close(terminal)
    assert sent is not None, told
    return os.waitstatus_to_exitcode(status), told, spent


def stopped(folder, name, seen, *options):
    out = folder / "stopped.png"
    out.unlink(missing_ok=True)
    status, told, spent = at_a_terminal(["-m", "gco_proved", "restore", folder / name, out, *options], seen, 0.3)
    assert status == 130 and "is what was found till then" in told and "Traceback" not in told, (status, told)
    assert Image.open(out).size == Image.open(folder / name).size
    return spent


def main(folder):
    rng = np.random.default_rng(7)
    for name, side in (("small.png", 512), ("large.png", 1100)):
        Image.fromarray(rng.integers(0, 256, (side, side)).astype(np.uint8)).save(folder / name)
    hard = ("--levels", 64, "--weight", 3)
    spent = [stopped(folder, "small.png", "cycle 1", *hard), stopped(folder, "large.png", "cycle 1", *hard),
             stopped(folder, "large.png", "sweep 1", "--levels", 8, "--jobs", 2), stopped(folder, "large.png", "sweep 1", "--levels", 8, "--jobs", 1)]
    status, told, seconds = at_a_terminal(["-c", LABEL], "begun", 2)
    assert status == 0 and "partial True" in told, (status, told)
    spent.append(seconds)
    assert max(spent) < 60, spent  # on a busy machine; docs/PYTHON.md has what it mostly is
    print("Ctrl-C at a terminal: answered after", ", ".join(f"{seconds:.1f}" for seconds in spent), "s")


made = pathlib.Path(tempfile.mkdtemp())
try:
    main(made)
finally:
    shutil.rmtree(made)
