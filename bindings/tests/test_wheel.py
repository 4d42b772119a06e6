"""The wheel of dist, installed into a fresh venv and tried; and gco beside a module of that name by others.

    test_wheel.py dist
"""
import base64
import glob
import hashlib
import os
import pathlib
import re
import shutil
import subprocess
import sys
import tempfile
import zipfile

DIST = pathlib.Path(sys.argv[1]).resolve()
DISTRICTS = """
import gco_proved, {name} as gco
data = [[4, 6, 9], [7, 5, 6], [8, 4, 7], [9, 7, 3], [6, 8, 5]]
pairs = [(0, 1, 3), (1, 2, 2), (2, 3, 2), (3, 4, 4), (1, 3, 1), (0, 4, 1)]
found = gco.label(data, gco.potts(3), pairs)
assert (found.energy, list(found.labels)) == (27, [1, 1, 1, 2, 2]), found
assert gco is gco_proved and gco.__version__ == {version!r}, (gco, gco.__version__)
import {name}.maxflow, gco_proved.maxflow
assert {name}.maxflow is gco_proved.maxflow and {name}.Refused is gco_proved.Refused
from {name}.maxflow import Graph
from {name} import cut_general_graph
"""


def contents(path):
    """What stands in the wheel, and the version of its name."""
    version = re.match(r"gco_proved-([^-]+)-py3-none-(.+)\.whl$", path.name)
    assert version, path
    version, tag = version.groups()
    with zipfile.ZipFile(path) as wheel:
        files = {name: wheel.read(name) for name in wheel.namelist()}
    info = f"gco_proved-{version}.dist-info"
    for name in ("gco_proved/__init__.py", "gco_proved/py.typed", "gco_proved/libgco.so", "gco_proved/pictures/commands.py", "gco_proved.pth",
                 f"{info}/LICENSE-MIT", f"{info}/LICENSE-APACHE", f"{info}/entry_points.txt"):
        assert name in files, name
    assert not [name for name in files if name.startswith("gco/")]
    facts = files[f"{info}/METADATA"].decode()
    for line in ("Name: gco-proved", f"Version: {version}", "License: MIT OR Apache-2.0", "Author: ", "Classifier: ", "Requires-Python: >=3.8",
                 "Description-Content-Type: text/markdown"):
        assert re.search(rf"^{re.escape(line)}", facts, re.M), line
    assert len(facts.split("\n\n", 1)[1]) > 2000
    rows = dict(row.split(",", 1) for row in files[f"{info}/RECORD"].decode().split())
    assert set(rows) == set(files)
    for name, data in files.items():
        digest = base64.urlsafe_b64encode(hashlib.sha256(data).digest()).rstrip(b"=").decode()
        assert name.endswith("RECORD") or rows[name] == f"sha256={digest},{len(data)}", name
    assert [f"Tag: py3-none-{one}" for one in tag.split(".")] == re.findall("^Tag: .*$", files[f"{info}/WHEEL"].decode(), re.M)
    return version, tag


def python(home, *words, status=0, **more):
    """A run of the venv's Python, far from this checkout; answers what it says."""
    kept = {name: value for name, value in os.environ.items() if name not in ("PYTHONPATH", "GCO_LIBRARY", "PIP_FIND_LINKS")}
    kept.update(more)
    ran = subprocess.run([str(home / "bin" / words[0]), *map(str, words[1:])], capture_output=True, text=True, cwd=home, env=kept, timeout=300)
    assert ran.returncode == status, (words, ran.stdout, ran.stderr)
    return ran.stdout + ran.stderr


def installed(home, wheel):
    """Installs the wheel into a new venv, by pip where the venv has one, else as it unpacks; answers whether by pip."""
    if subprocess.run([sys.executable, "-m", "venv", str(home)], capture_output=True).returncode == 0:
        python(home, "python", "-m", "pip", "install", "-q", "--no-index", "--no-deps", wheel)
        return True
    shutil.rmtree(home, ignore_errors=True)
    subprocess.run([sys.executable, "-m", "venv", "--without-pip", str(home)], check=True)
    with zipfile.ZipFile(wheel) as packed:
        packed.extractall(next(home.glob("lib/python*/site-packages")))
    return False


def fresh(home, wheel, version):
    """The installed package: its two names, its two commands, and a start of Python that loads nothing."""
    by_pip = installed(home, wheel)
    python(home, "python", "-c", DISTRICTS.format(name="gco", version=version))
    python(home, "python", "-c", "import sys; assert not {'gco', 'gco_proved', 'numpy'} & set(sys.modules) and '_gco_proved_alias' in sys.modules")
    for words in [("python", "-m", "gco"), ("python", "-m", "gco_proved")] + [("gco-picture",)] * by_pip:
        assert python(home, *words, "--version") == f"gco {version}\n", words
        assert "pip install" in python(home, *words, "restore", "a.png", "b.png", status=1), words
        (home / "p.toml").write_text("variables = 1\nterms = [{on = [0], values = [3, 1]}]")
        if sys.version_info >= (3, 11):
            assert python(home, *words, "energy", "p.toml") == "minimum 1\nassignment 1\n", words
    asked = "import importlib.metadata as m; print(m.version('gco-proved'), m.metadata('gco-proved')['License'])"
    assert python(home, "python", "-c", asked) == f"{version} MIT OR Apache-2.0\n"
    return by_pip


def side_by_side(home, version):
    """A module gco by others is the one that `import gco` gives, and gco_proved works beside it."""
    other = next(home.glob("lib/python*/site-packages")) / "gco"
    other.mkdir()
    (other / "__init__.py").write_text("from . import part\nWHOSE = 'others'\n")
    (other / "part.py").write_text("def cut_general_graph(): return 'others'\n")
    text = "import gco, gco.part, gco_proved, gco_proved.maxflow\nassert gco.WHOSE == gco.part.cut_general_graph() == 'others' and gco is not gco_proved\n"
    python(home, "python", "-c", text + "assert gco_proved.label([[1, 0]], [[0, 1], [1, 0]], []).energy == 0")
    python(home, "python", "-c", DISTRICTS.format(name="gco_proved", version=version))
    assert python(home, "python", "-m", "gco_proved", "--version") == f"gco {version}\n"
    shutil.rmtree(other)
    python(home, "python", "-c", DISTRICTS.format(name="gco", version=version))


def laid_out(home, version):
    """dist/python on PYTHONPATH serves as it is."""
    bare = home / "bare"
    subprocess.run([sys.executable, "-m", "venv", "--without-pip", str(bare)], check=True)
    python(bare, "python", "-c", DISTRICTS.format(name="gco", version=version), PYTHONPATH=str(DIST / "python"))
    for name in ("gco", "gco_proved"):
        assert python(bare, "python", "-m", name, "--version", PYTHONPATH=str(DIST / "python")) == f"gco {version}\n"
    assert "No module named" in python(bare, "python", "-c", "import gco", status=1)


(wheel,) = map(pathlib.Path, glob.glob(str(DIST / "gco_proved-*.whl")))
version, tag = contents(wheel)
folder = pathlib.Path(tempfile.mkdtemp())
try:
    by_pip = fresh(folder / "venv", wheel, version)
    side_by_side(folder / "venv", version)
    if by_pip:
        python(folder / "venv", "python", "-m", "pip", "uninstall", "-q", "-y", "gco-proved")
        assert "No module named" in python(folder / "venv", "python", "-c", "import gco", status=1)
        assert not [path for path in (folder / "venv" / "lib").rglob("*gco*")]
    laid_out(folder, version)
finally:
    shutil.rmtree(folder)
print("wheel", wheel.name, "by pip" if by_pip else "unpacked (this Python has no ensurepip)", "and beside another gco")
