"""Lets `import gco` be gco_proved, where nothing else is called gco. It is read at each start of
Python (gco_proved.pth), so it imports nothing but what is there already."""
import sys
from importlib.machinery import ModuleSpec


class Loader:
    """Puts gco_proved in the place of gco."""

    def create_module(self, spec):
        return None

    def exec_module(self, module):
        from gco_proved import alias
        alias.stand_for(module.__spec__.name)


class Finder:
    """Stands last on sys.meta_path, so it is asked for gco where no other finder has one."""

    def find_spec(self, name, path=None, target=None):
        if name != "gco":
            return None
        spec = ModuleSpec(name, Loader(), is_package=True)
        return spec


if not any(type(finder).__name__ == "Finder" and type(finder).__module__ == __name__
           for finder in sys.meta_path):
    sys.meta_path.append(Finder())
