"""The build backend that pyproject.toml names: `pip install .` gets the wheel of the bindings.

`make -C bindings wheel` makes it. It proves the library first, if that is still to be done, which
needs the toolchain. As with make, the environment may name a built one: CRATE=path/of/gco_c.
"""
import shutil
import subprocess
import sys
from pathlib import Path

BINDINGS = Path(__file__).resolve().parent.parent / "bindings"


class UnsupportedOperation(Exception):
    """What a backend says of a hook that it does not have."""


def build_wheel(wheel_directory, config_settings=None, metadata_directory=None):
    """Makes the wheel, copies it into the folder and answers its name."""
    command = ["make", "-C", str(BINDINGS), "wheel", f"PYTHON={sys.executable}"]
    subprocess.run(command, check=True)
    (wheel,) = (BINDINGS / "dist").glob("gco_proved-*.whl")
    shutil.copy(wheel, wheel_directory)
    return wheel.name


def build_sdist(sdist_directory, config_settings=None):
    raise UnsupportedOperation("sources alone have no library: copy the repository, or a wheel")
