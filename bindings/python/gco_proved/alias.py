"""gco_proved under the name gco: one module, its parts included."""
import importlib
import sys
from importlib.machinery import ModuleSpec
from typing import Any, Optional, Sequence

REAL = "gco_proved"


class _Loader:
    """Puts gco_proved, or a part of it, in the place of a module that is being imported."""

    def create_module(self, spec: ModuleSpec) -> None:
        return None

    def exec_module(self, module: Any) -> None:
        name = module.__spec__.name
        sys.modules[name] = importlib.import_module(REAL + name[len(name.split(".")[0]):])


class _Parts:
    """Finds the parts of gco, where gco is gco_proved; `gco.__main__` is found by its file."""

    def find_spec(self, name: str, path: Optional[Sequence[str]] = None,
                  target: Any = None) -> Optional[ModuleSpec]:
        first, _, part = name.partition(".")
        if first != "gco" or not part or part.endswith("__main__"):
            return None
        if getattr(sys.modules.get("gco"), "__name__", None) != REAL:
            return None
        return ModuleSpec(name, _Loader())  # type: ignore[arg-type]


def stand_for(name: str) -> None:
    """Lets the module of that name be gco_proved."""
    sys.modules[name] = importlib.import_module(REAL)
    if not any(isinstance(finder, _Parts) for finder in sys.meta_path):
        sys.meta_path.insert(0, _Parts())  # type: ignore[arg-type]
