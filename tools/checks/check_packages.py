#!/usr/bin/env python3
"""Says which Debian packages a trial wants and this machine does not have; ends in status 1 if any
is missing. What is tried only if it is there is named too.

    python3 tools/checks/check_packages.py          those of `make check`
    python3 tools/checks/check_packages.py web      those of `make check-web`; arm: of `make check-arm`

The modules are looked for in the Python that runs this script, which is the one of the trials:
Debian's packages serve Debian's own, `make check PYTHON=/usr/bin/python3`.
"""
import importlib.util
import os
import shutil
import sys

DEBIANS = "/usr/bin/python3"
# Of each trial the commands that it wants, and then the modules: the package of each.
EVERYWHERE = {"gcc": "gcc", "g++": "g++", "objdump": "binutils"}
RELEASE = {"dpkg-deb": "dpkg", "man": "man-db", "groff": "groff", "git": "git"}
COMMANDS = {
    "check": EVERYWHERE
    | RELEASE
    | {
        "pkg-config": "pkg-config",
        "cmake": "cmake",
        "pngtopnm": "netpbm",
        "jpegtopnm": "netpbm",
        "pamdepth": "netpbm",
    },
    "web": EVERYWHERE
    | {
        "wasm-opt": "binaryen",
        "chromium": "chromium",
        "chromedriver": "chromium-driver",
        "firefox-esr": "firefox-esr",
    },
    "arm": EVERYWHERE
    | RELEASE
    | {"aarch64-linux-gnu-g++": "g++-aarch64-linux-gnu", "qemu-aarch64": "qemu-user"},
}
MODULES = {
    "check": {
        "numpy": "python3-numpy",
        "PIL": "python3-pil",
        "ensurepip": "python3-venv",
        "distributed": "python3-distributed",
    },
    "web": {"selenium": "python3-selenium"},
}
# Tried only if they are there: the command or module, its package, what is left untried.
OPTIONAL_COMMANDS = {
    "check": {
        "clang++": ("clang", "the headers and programs by a second compiler"),
        "cargo": ("cargo", "the crate for Rust"),
        "fakeroot": ("fakeroot", "the installed package, if the user is not root"),
        "zsh": ("zsh", "its completions"),
        "fish": ("fish", "its completions"),
    },
    "web": {
        "node": ("nodejs", "the package for node"),
        "tsc": ("node-typescript", "the package's types"),
    },
}
OPTIONAL_MODULES = {
    "check": {
        "tqdm": ("python3-tqdm", "the progress bar"),
        "matplotlib": ("python3-matplotlib", "--plot"),
        "networkx": ("python3-networkx", "get_nx_graph"),
        "zarr": ("python3-zarr", "tiles over zarr arrays"),
    },
}


def is_module(name):
    return importlib.util.find_spec(name) is not None


def is_command(name):
    return shutil.which(name) is not None


def missing_packages(trial):
    """The packages of what is not there, each once."""
    commands, modules = COMMANDS[trial].items(), MODULES.get(trial, {}).items()
    packages = {package for command, package in commands if not is_command(command)}
    return sorted(packages | {package for module, package in modules if not is_module(module)})


def untried(trial):
    """What is not tried on this machine, and the package that would change that."""
    for known, is_there in ((OPTIONAL_COMMANDS, is_command), (OPTIONAL_MODULES, is_module)):
        for name, (package, what) in known.get(trial, {}).items():
            if not is_there(name):
                yield what, package


def main():
    trial = sys.argv[1] if len(sys.argv) > 1 else "check"
    if trial not in COMMANDS:
        sys.exit(__doc__)
    for what, package in untried(trial):
        print(f"not tried: {what} (Debian: apt-get install {package})")
    missing = missing_packages(trial)
    if missing:
        print(f"missing: apt-get install {' '.join(missing)}")
        if not os.path.samefile(sys.executable, DEBIANS):
            print(f"Debian's modules serve Debian's Python: PYTHON={DEBIANS}")
        sys.exit(1)
    print(f"all packages that are wanted are there, for {sys.executable}")


if __name__ == "__main__":
    main()
