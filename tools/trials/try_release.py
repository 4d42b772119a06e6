#!/usr/bin/env python3
"""Tries a release as a user does who has nothing but the archive: no toolchain, an empty folder.

    python3 tools/trials/try_release.py dist/gco-1.0.0-linux-x86_64.tar.gz dist/gco_1.0.0_amd64.deb

Unpacks it, tests its sums, runs the first commands of its README.md as they are written, installs it,
runs the program on the examples, compiles the programs of docs/BINDINGS.md by pkg-config and by CMake,
imports the wheel, reads the manuals, loads the completions, and takes all of it away again. Then dpkg
installs the Debian package into a root of its own, where it is tried and taken away. Each step prints
what it took; the first that fails ends the run in status 1.
"""
import os
import re
import shutil
import subprocess
import sys
import tempfile
import time
from pathlib import Path

ENERGIES = [
    ("noisy.pgm", ["restore", "--weight", "4"], "energy 8865 data 7581 smooth 1284\n"),
    (
        "dots.pgm",
        ["stereo", "--labels", "8", "--weight", "30", "--cap", "80"],
        "energy 23792 data 5912 smooth 17880\n",
    ),
    ("districts.toml", ["label"], "energy 27 data 23 smooth 4\nlabels 1 1 1 2 2\n"),
    ("small.toml", ["energy"], "minimum 12\nassignment 100\n"),
]
FIRST = re.compile(r"^```sh by hand\n(tar xzf .*?)^```$", re.DOTALL | re.MULTILINE)
STYLE = re.compile(".\b|\x1b\\[[0-9;]*m")  # how bold and italic letters reach a terminal
DISTRICTS = "energy 27\nlabels 1 1 1 2 2\n"
RESTORES = "import gco; print(gco.restore_pgm(open('{}', 'rb').read(), weight=4).energy)"
CMAKE = """cmake_minimum_required(VERSION 3.10)
project(districts C CXX)
find_package(gco {version} REQUIRED)
add_executable(static districts.c)
target_link_libraries(static gco::gco)
add_executable(shared districts.cpp)
target_link_libraries(shared gco::shared)
"""


class Trial:
    """A folder of its own, and the environment of a user without a toolchain."""

    def __init__(self, folder, archive, package):
        self.folder = folder
        self.archive = archive
        self.package = package
        self.prefix = folder / "prefix"
        self.env = {
            "PATH": f"{self.prefix}/bin:/usr/bin:/bin",
            "HOME": str(folder),
            "LC_ALL": "C.UTF-8",
            "PKG_CONFIG_PATH": f"{self.prefix}/lib/pkgconfig",
            "LD_LIBRARY_PATH": f"{self.prefix}/lib",
            "CMAKE_PREFIX_PATH": str(self.prefix),
            "PYTHONDONTWRITEBYTECODE": "1",
        }

    def run(self, words, **more):
        """What a command prints to both outputs; a status other than 0 ends the trial."""
        done = subprocess.run(
            [str(word) for word in words],
            cwd=more.pop("cwd", self.folder),
            env=more.pop("env", self.env),
            text=True,
            stdout=subprocess.PIPE,
            stderr=subprocess.STDOUT,
            **more,
        )
        if done.returncode:
            sys.exit(f"{' '.join(map(str, words))}: status {done.returncode}\n{done.stdout}")
        return done.stdout


def wants(told, wanted, what):
    if told != wanted:
        sys.exit(f"{what}: wanted\n{wanted}\nand there was\n{told}")


def unpack(trial, archive):
    trial.run(["tar", "xzf", archive])
    tree = trial.folder / archive.name.removesuffix(".tar.gz")
    trial.run(["sha256sum", "--quiet", "-c", "SHA256SUMS"], cwd=tree)
    listed = {line.split("  ", 1)[1] for line in (tree / "SHA256SUMS").read_text().splitlines()}
    there = {
        str(path.relative_to(tree))
        for path in tree.rglob("*")
        if path.is_file() and not path.is_symlink()
    }
    wants(sorted(there - listed), ["SHA256SUMS"], "files without a sum")
    left = re.findall(r"@[A-Z]+@", (tree / "RELEASE.md").read_text())
    wants(left, [], "RELEASE.md has words that were not filled in")
    return tree


def first_picture(trial, tree):
    """The archive's commands of README.md, "Get it", as they are written, in an empty home."""
    commands = FIRST.search((tree / "share/doc/gco/README.md").read_text(encoding="utf-8")).group(1)
    home = trial.folder / "home"
    home.mkdir()
    shutil.copy(trial.archive, home)
    env = {
        "PATH": "/usr/bin:/bin",
        "HOME": str(home),
        "LC_ALL": "C.UTF-8",
        "PIP_DISABLE_PIP_VERSION_CHECK": "1",
    }
    told = trial.run(["bash", "-euc", commands], cwd=home, env=env)
    if ENERGIES[0][2] not in told:
        sys.exit(f"the first commands of README.md do not print {ENERGIES[0][2]}{told}")
    for picture in ("restored.pgm", "restored.png"):
        if not (home / picture).exists():
            sys.exit(f"the first commands of README.md leave no {picture}")


def install(trial, tree):
    trial.run(["sh", tree / "install.sh", "--prefix", trial.prefix])
    trial.run(
        ["sh", tree / "install.sh", "--prefix", trial.prefix]
    )  # twice: the second one replaces the first


def run_program(trial, tree):
    examples = trial.prefix / "share/doc/gco/examples"
    for name, words, wanted in ENERGIES:
        with open(examples / name, "rb") as file:
            done = subprocess.run(
                ["gco", *words], stdin=file, capture_output=True, env=trial.env, check=True
            )
        told = done.stderr if done.stderr else done.stdout
        wants(told.decode(), wanted, f"gco {' '.join(words)} < {name}")


def programs(tree):
    """The first program in C and in C++ of docs/BINDINGS.md, and in Python of docs/PYTHON.md."""
    first = {}
    for page, kinds in (("BINDINGS.md", "c|cpp"), ("PYTHON.md", "python")):
        text = (tree / "share/doc/gco/docs" / page).read_text(encoding="utf-8")
        for kind, program in re.findall(rf"^```({kinds})\n(.*?)^```$", text, re.S | re.M):
            first.setdefault(kind, program)
    return first


def compile_programs(trial, tree):
    blocks = programs(tree)
    (trial.folder / "districts.c").write_text(blocks["c"])
    (trial.folder / "districts.cpp").write_text(blocks["cpp"])
    flags = trial.run(["pkg-config", "--cflags", "--libs", "gco"]).split()
    wants(
        trial.run(["pkg-config", "--modversion", "gco"]),
        (tree / "VERSION").read_text(),
        "pkg-config --modversion",
    )
    for compiler, source in (("gcc", "districts.c"), ("g++", "districts.cpp")):
        trial.run([compiler, source, *flags, "-o", "districts"])
        wants(trial.run(["./districts"]), DISTRICTS, f"{compiler} {source}")
    version = ".".join((tree / "VERSION").read_text().split(".")[:2])
    (trial.folder / "CMakeLists.txt").write_text(CMAKE.format(version=version))
    trial.run(["cmake", "-S", ".", "-B", "built"])
    trial.run(["cmake", "--build", "built"])
    for program in ("static", "shared"):
        wants(trial.run([f"built/{program}"]), DISTRICTS, f"CMake's {program} program")


def try_library(trial, tree):
    told = trial.run(["objdump", "-p", trial.prefix / "lib/libgco.so"])
    soname = re.search(r"SONAME +(\S+)", told).group(1)
    if (
        not re.fullmatch(r"libgco\.so\.\d+(?:\.\d+)*", soname)
        or not (trial.prefix / "lib" / soname).exists()
    ):
        sys.exit(f"the soname {soname} has no number, or no file of that name is installed")
    for header in ("gco.h", "gco_pictures.h", "GCoptimization.h", "energy.h"):
        if not (trial.prefix / "include/gco" / header).is_file():
            sys.exit(f"include/gco/{header} is not installed")


def try_wheel(trial, tree):
    """The wheel after `pip install`, which takes nothing from a server."""
    (trial.folder / "districts.py").write_text(programs(tree)["python"])
    trial.run([sys.executable, "-m", "venv", "venv"])
    trial.run(
        [
            "venv/bin/python",
            "-m",
            "pip",
            "install",
            "-q",
            "--no-index",
            "--no-deps",
            next((tree / "python").glob("*.whl")),
        ]
    )
    told = trial.run(["venv/bin/python", "districts.py"])
    if not told.startswith("27 [1, 1, 1, 2, 2]"):
        sys.exit(f"districts.py printed {told}")
    picture = tree / "share/doc/gco/examples/noisy.pgm"
    told = trial.run(["venv/bin/python", "-c", RESTORES.format(picture)])
    wants(told, "8865\n", "the wheel's restore_pgm")


def read_manuals(trial, tree):
    """Each manual, formatted by man and by groff without a warning."""
    manuals = sorted((trial.prefix / "share/man/man1").glob("*.1"))
    wants(
        [page.name for page in manuals],
        ["gco-energy.1", "gco-label.1", "gco-restore.1", "gco-segment.1", "gco-stereo.1", "gco.1"],
        "manuals",
    )
    for page in manuals:
        for words in (
            ["man", "-l", "--warnings", "-E", "UTF-8", "-Tutf8", page],
            ["groff", "-man", "-Tutf8", "-ww", page],
        ):
            done = subprocess.run(words, env=trial.env, capture_output=True, text=True, check=True)
            wants(done.stderr, "", f"{' '.join(map(str, words))}: warnings")
            if "REFUSALS" not in STYLE.sub("", done.stdout) and page.name != "gco.1":
                sys.exit(f"{page.name} has no refusals")


def load_completions(trial, tree):
    """What each shell that is installed offers at three places."""
    share = trial.prefix / "share"
    bash = f"""source {share}/bash-completion/completions/gco
offer() {{ COMP_WORDS=("$@"); COMP_CWORD=$(($# - 1)); _gco; echo "${{COMPREPLY[*]}}"; }}
offer gco s; offer gco restore --sm; offer gco stereo --smooth ''"""
    wants(
        trial.run(["bash", "-c", bash]),
        "stereo segment\n--smooth\npotts linear quadratic\n",
        "bash",
    )
    if shutil.which("fish"):
        fish = f"""source {share}/fish/vendor_completions.d/gco.fish
for line in "gco s" "gco restore --sm" "gco stereo --smooth "
    echo (complete -C $line | string split -f 1 \\t)
end"""
        wants(
            trial.run(["fish", "--no-config", "-c", fish]),
            "segment stereo\n--smooth\nlinear potts quadratic\n",
            "fish",
        )
    if shutil.which("zsh"):
        zsh = f"""fpath=({share}/zsh/site-functions $fpath); autoload -Uz compinit; compinit -u -D
[[ $_comps[gco] == _gco ]] || exit 1
_describe() {{ print -r -- ${{commands%%:*}} }}
_arguments() {{ print -r -- ${{${{(M)@:#--*}}%%\\[*}} }}
words=(gco s) CURRENT=2; _gco; words=(gco energy --) CURRENT=3; _gco"""
        wants(
            trial.run(["zsh", "-f", "-c", zsh]),
            "restore stereo segment energy label help\n"
            "--threads --blocks --ring --turns --rounds\n",
            "zsh",
        )


def uninstall(trial, tree):
    trial.run(["sh", tree / "install.sh", "--prefix", trial.prefix, "--uninstall"])
    left = [str(path) for path in trial.prefix.rglob("*")]
    wants(left, [], "left after uninstall")


def by_dpkg(trial, root, *words):
    """A call of dpkg on a root of its own, whose scripts run outside it."""
    env = {**trial.env, "PATH": f"{trial.env['PATH']}:/usr/sbin:/sbin"}
    asked = ["dpkg", f"--root={root}", "--force-script-chrootless", "--force-depends", *words]
    if os.geteuid() != 0:
        asked = ["fakeroot", *asked]
    return trial.run(asked, env=env)


def files_below(root):
    """All files that are not dpkg's own."""
    kept = root / "var/lib/dpkg"
    return [
        str(path.relative_to(root))
        for path in root.rglob("*")
        if not path.is_dir() and kept not in path.parents and path.parent != root / "var/log"
    ]


def try_package_program(root):
    with open(root / "usr/share/doc/gco/examples/districts.toml", "rb") as file:
        told = subprocess.run(
            [root / "usr/bin/gco", "label"], stdin=file, capture_output=True, check=True
        ).stdout
    wants(told.decode(), "energy 27 data 23 smooth 4\nlabels 1 1 1 2 2\n", "the package's program")


def try_package_module(trial, root, version):
    """The module and its command, by a Python that keeps what it compiled beside the module."""
    modules = root / "usr/lib/python3/dist-packages"
    env = {**trial.env, "PYTHONPATH": str(modules)}
    del env["PYTHONDONTWRITEBYTECODE"]
    program = f"import site; site.addsitedir('{modules}'); import gco; " + (
        "print(gco.label([[0, 3], [3, 0]], gco.potts(2), [(0, 1, 3)]).energy)"
    )
    wants(trial.run([sys.executable, "-c", program], env=env), "3\n", "the package's module")
    picture = root / "usr/share/doc/gco/examples/noisy.pgm"
    program = f"import site; site.addsitedir('{modules}'); {RESTORES.format(picture)}"
    told = trial.run([sys.executable, "-c", program], env=env)
    wants(told, "8865\n", "the package's restore_pgm")
    told = trial.run([sys.executable, root / "usr/bin/gco-picture", "--version"], env=env)
    wants(told, f"gco {version}\n", "the package's gco-picture")
    if not any(modules.rglob("__pycache__")):
        sys.exit("Python kept nothing beside the package's module, so removal is not tried")


def try_deb(trial, tree):
    """The package, put into a root of its own by dpkg, tried there and taken away again."""
    if os.geteuid() != 0 and shutil.which("fakeroot") is None:
        print("the package is not tried: fakeroot is missing (Debian: apt-get install fakeroot)")
        return
    root = trial.folder / "root"
    for folder in ("info", "updates", "triggers"):
        (root / "var/lib/dpkg" / folder).mkdir(parents=True)
    for name in ("status", "available"):
        (root / "var/lib/dpkg" / name).touch()
    by_dpkg(trial, root, "--install", trial.package)
    wants(by_dpkg(trial, root, "--verify", "gco"), "", "files that are not the package's own")
    try_package_program(root)
    try_package_module(trial, root, (tree / "VERSION").read_text().strip())
    by_dpkg(trial, root, "--purge", "gco")
    wants(files_below(root), [], "left after the package was taken away")


def main():
    archive, package = (Path(word).resolve() for word in sys.argv[1:])
    with tempfile.TemporaryDirectory() as name:
        trial = Trial(Path(name), archive, package)
        tree = unpack(trial, archive)
        for step in (
            first_picture,
            install,
            run_program,
            try_library,
            compile_programs,
            try_wheel,
            read_manuals,
            load_completions,
            uninstall,
            try_deb,
        ):
            begun = time.monotonic()
            step(trial, tree)
            print(f"{step.__name__}: {time.monotonic() - begun:.1f} s", flush=True)
    print("release: all steps passed")


if __name__ == "__main__":
    main()
