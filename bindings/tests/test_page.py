"""The programs of docs/PYTHON.md, run as they are written."""
import contextlib
import glob
import io
import os
import pathlib
import re
import subprocess
import sys
import tempfile

PAGE = pathlib.Path(__file__).resolve().parent.parent.parent / "docs" / "PYTHON.md"


def programs():
    """Each program of the page, and the name of the file that it is for, where the page gives one."""
    named = r"(?:`(\w+\.py)`(?:[^\n]|\n(?!\n))*?:\n\n)?"
    return re.findall(named + r"```python\n(.*?)```", PAGE.read_text(), re.S)


def first_ones():
    """The programs before "Many pictures", one after another."""
    space, said = {}, io.StringIO()
    with contextlib.redirect_stdout(said):
        for _, text in programs()[:4]:
            exec(compile(text, "PYTHON.md", "exec"), space)
    lines = said.getvalue().splitlines()
    assert lines[0] == "27 [1, 1, 1, 2, 2] bound (1, 1)", lines
    assert lines[1] == "27 27 0.0", lines
    assert lines[2:] == ["cycle 2 label 2: 5 sites, energy 27"], lines  # the end of so small a run
    assert space["found"].energy == 27


def fractions():
    """The program of fractions, where numpy is there: what it prints stands behind its last line."""
    text, said = programs()[4][1], io.StringIO()
    try:
        import numpy
    except ImportError:
        return
    with contextlib.redirect_stdout(said):
        exec(compile(text, "PYTHON.md", "exec"), {"numpy": numpy})
    assert said.getvalue().strip() == text.strip().rsplit("# ", 1)[1] == "2.75 [0, 1, 0] 4.0 True", said.getvalue()


def many_pictures():
    """many.py by itself and by threads: the same energies of two files."""
    name, text = programs()[5]
    assert name == "many.py", name
    with tempfile.TemporaryDirectory() as folder:
        pathlib.Path(folder, name).write_text(text)
        pathlib.Path(folder, "threads.py").write_text(programs()[6][1])
        for number in (1, 2):
            side = range(256)
            pathlib.Path(folder, f"picture{number}.raw").write_bytes(bytes((x * number + y * y // 64) % 256 // (1 + (x ^ y) % 3) for y in side for x in side))
        run = dict(cwd=folder, capture_output=True, text=True, timeout=300, env={**os.environ, "PYTHONPATH": os.path.abspath(os.environ.get("PYTHONPATH", "").split(":")[0])})
        alone = subprocess.run([sys.executable, name, *sorted(map(os.path.basename, glob.glob(f"{folder}/*.raw")))], **run)
        threads = subprocess.run([sys.executable, "threads.py"], **run)
        assert alone.returncode == threads.returncode == 0, (alone.stderr, threads.stderr)
        assert alone.stdout == threads.stdout and len(set(alone.stdout.split()[1::2])) == 2, (alone.stdout, threads.stdout)


first_ones()
fractions()
many_pictures()
print("the programs of docs/PYTHON.md")
