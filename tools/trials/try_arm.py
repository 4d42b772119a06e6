#!/usr/bin/env python3
"""Tries the release for 64-bit ARM on x86-64, by an emulator:

    python3 tools/trials/try_arm.py dist/gco-1.0.0-linux-aarch64.tar.gz dist/gco_1.0.0_arm64.deb --gco PROGRAM

PROGRAM is the one of this machine: the program of ARM has to write its bytes, on one thread and by
two. The archive is unpacked and installed, and the tests of the bindings in C and C++ are compiled
for ARM and run. Random runs are compared with the definitions, and random calls with PROGRAM and
with the library of this machine, which PYTHONPATH names. Each step prints what it took; the first
that fails ends the run in status 1. Debian's qemu-user and g++-aarch64-linux-gnu are wanted.
"""
import argparse
import os
import subprocess
import sys
import tempfile
import time
import zipfile
from pathlib import Path

from try_release import ENERGIES, Trial, install, uninstall, unpack, wants

TOP = Path(__file__).resolve().parents[2]
TESTS = TOP / "bindings" / "tests"
CROSS, ROOT = "aarch64-linux-gnu-", "/usr/aarch64-linux-gnu"
EMULATOR = ["qemu-aarch64", "-L", ROOT]
ARM = (183).to_bytes(2, "little")  # e_machine of an ELF file
C = ["-std=c99", "-O1", "-Wall", "-Wextra", "-Werror", "-pthread"]
RANDOM = 500
# Runs, and the words of each.
RUNS = [
    ("noisy.pgm", ["restore", "--weight", "4"]),
    ("noisy.pgm", ["restore", "--moves", "swap"]),
    ("dots.pgm", ["stereo", "--labels", "8", "--weight", "30", "--cap", "80"]),
    ("seeded.pgm", ["segment", "--low", "40", "--high", "170"]),
    ("small.toml", ["energy"]),
    ("districts.toml", ["label", "--bound"]),
]
SIDE, VARIABLES = 256, 8192  # of the runs that two threads share


def elf_machine(data):
    return data[18:20] if data[:4] == b"\x7fELF" else None


def try_machine(trial, tree):
    """Each compiled file is for ARM, and the names of wheel and package say so."""
    wheel = next((tree / "python").glob("*.whl"))
    with zipfile.ZipFile(wheel) as packed:
        parts = {name: packed.read(name) for name in packed.namelist() if name.endswith(".so")}
    parts |= {path.name: path.read_bytes() for path in [tree / "bin/gco", *tree.glob("lib/*.so")]}
    wants({elf_machine(data) for data in parts.values()}, {ARM}, f"the machine of {sorted(parts)}")
    wants(wheel.stem.endswith("_aarch64"), True, f"the tag of {wheel.name}")
    told = trial.run(["dpkg-deb", "--field", trial.package, "Architecture"])
    wants(told, "arm64\n", "the package's processor")


def on_arm(words, **more):
    done = subprocess.run([*EMULATOR, *map(str, words)], capture_output=True, **more)
    return done.returncode, done.stdout, done.stderr


def run_program(trial, tree):
    examples = tree / "share/doc/gco/examples"
    for name, words, wanted in ENERGIES:
        found = on_arm([trial.prefix / "bin/gco", *words], input=(examples / name).read_bytes())
        told = (found[2] or found[1]).decode()
        wants((found[0], told), (0, wanted), f"gco {' '.join(words)} < {name}")


def large_picture():
    """Tiles of four grey levels, with noise."""
    pixels = (((x // 32 + y // 32) % 4 + (x * x * 7 + y * y * 3 + x * y) % 11 // 9) % 4
              for y in range(SIDE) for x in range(SIDE))
    return b"P5\n%d %d\n3\n" % (SIDE, SIDE) + bytes(pixels)


def large_energy():
    """A chain, whose cut is shared by blocks."""
    ones = (f"{{on = [{it}], values = [{it * it * 7 % 31}, {it * 5 % 29}]}}" for it in range(VARIABLES))
    pairs = (f"{{on = [{it - 1}, {it}], values = [0, {it % 13}, {it % 7}, 0]}}" for it in range(1, VARIABLES))
    return f"variables = {VARIABLES}\nterms = [{', '.join([*ones, *pairs])}]\n".encode()


def shared_runs():
    """Runs that two threads share: the parts of large moves, and a large cut."""
    return [(large_picture(), ["restore", "--weight", "2"]), (large_energy(), ["energy"])]


def run_threads(trial, tree):
    """The same bytes as the program of this machine, on one thread and by two, and the same refusals."""
    examples = tree / "share/doc/gco/examples"
    known = [((examples / name).read_bytes(), words)
             for name, words in [*RUNS, ("noisy.pgm", ["energy"]), ("small.toml", ["restore"])]]
    for data, words in [*known, *shared_runs()]:
        done = subprocess.run([trial.gco, *words], input=data, capture_output=True)
        wanted = (done.returncode, done.stdout, done.stderr)
        for more in ([], ["--threads", "2"]):
            found = on_arm([trial.prefix / "bin/gco", *words, *more], input=data)
            wants(found, wanted, f"gco {' '.join([*words, *more])}")


def start_threads(trial, tree):
    """The shared runs do start threads."""
    log = trial.folder / "calls"
    for data, words in shared_runs():
        on_arm(["-strace", "-D", log, trial.prefix / "bin/gco", *words, "--threads", "2"], input=data)
        wants(" clone(" in log.read_text(), True, f"gco {' '.join(words)} --threads 2 starts a thread")


def flags(trial, *libraries):
    return [f"-I{trial.prefix}/include/gco", *(trial.prefix / "lib" / name for name in libraries)]


def run_calls(trial, tree):
    """The tests of both libraries in C, by the archives and by the shared libraries."""
    for test, library in (("calls", "libgco"), ("images", "libgco_pictures")):
        for kind in ("a", "so"):
            program = trial.folder / f"{test}_{kind}"
            source = TESTS / f"{test}.c"
            trial.run([f"{CROSS}gcc", *C, source, *flags(trial, f"{library}.{kind}"), "-o", program])
            words = ["-E", f"LD_LIBRARY_PATH={trial.prefix}/lib:{ROOT}/lib", program]
            status, told, wrong = on_arm(words)
            wants((status, wrong), (0, b""), f"{test}.c with {library}.{kind}: {told.decode()}")


def run_growths(trial, tree):
    """Each allocation of the library, refused in turn."""
    wraps = [f"-Wl,--wrap={call}" for call in ("malloc", "realloc", "free")]
    program = trial.folder / "growths"
    trial.run([f"{CROSS}gcc", *C, TESTS / "growths.c", *flags(trial, "libgco.a"), *wraps, "-o", program])
    status, told, wrong = on_arm([program])
    wants((status, wrong), (0, b""), f"growths.c: {told.decode()}")


def here(trial, name, program):
    """A command of this machine that runs a program of ARM."""
    path = trial.folder / name
    path.write_text(f"#!/bin/sh\nexec {' '.join(EMULATOR)} {program} \"$@\"\n")
    path.chmod(0o755)
    return path


def random_calls(trial, tree):
    """The same random problems by the library of ARM, and by the program and the library of this machine."""
    program = trial.folder / "answers"
    standard = ["-std=c++11", "-O1", f"-I{TESTS}"]
    trial.run([f"{CROSS}g++", *standard, TESTS / "answers.cpp", *flags(trial, "libgco.a"), "-o", program])
    words = [sys.executable, TESTS / "against_program.py", "--count", RANDOM, here(trial, "on_arm", program)]
    env = {**trial.env, "PYTHONPATH": os.environ["PYTHONPATH"], "GCO_PROGRAM": str(trial.gco)}
    print(trial.run(words, cwd=TOP, env=env), end="")


def random_runs(trial, tree):
    """Random runs of the program of ARM, compared with the definitions."""
    program = here(trial, "gco_on_arm", trial.prefix / "bin/gco")
    script = TOP / "tools/trials/program_by_definition.py"
    print(trial.run([sys.executable, script, "--gco", program, "--count", RANDOM]), end="")


def try_package(trial, tree):
    """The package has the files of the archive."""
    root = trial.folder / "root"
    trial.run(["dpkg-deb", "-x", trial.package, root])
    for name in ("bin/gco", "lib/libgco.a", "lib/libgco.so", "lib/libgco_pictures.so"):
        wants((root / "usr" / name).read_bytes() == (tree / name).read_bytes(), True, f"the package's {name}")
    beside = sorted((root / "usr/lib/python3/dist-packages").glob("*/*.so"))
    wants([path.resolve().parent for path in beside], [root / "usr/lib"] * 2, "the module's libraries")


def main():
    parser = argparse.ArgumentParser(description=__doc__.split("\n")[0])
    parser.add_argument("archive", type=Path)
    parser.add_argument("package", type=Path)
    parser.add_argument("--gco", type=Path, required=True)
    options = parser.parse_args()
    with tempfile.TemporaryDirectory() as name:
        trial = Trial(Path(name), options.archive.resolve(), options.package.resolve())
        trial.gco = options.gco.resolve()
        tree = unpack(trial, trial.archive)
        for step in (try_machine, install, run_program, run_threads, start_threads, run_calls, run_growths,
                     random_calls, random_runs, uninstall, try_package):
            begun = time.monotonic()
            step(trial, tree)
            print(f"{step.__name__}: {time.monotonic() - begun:.1f} s", flush=True)
    print("the release for ARM: all steps passed, by an emulator")


if __name__ == "__main__":
    main()
