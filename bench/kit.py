"""The kit's command `rt` as a module, for the commands of this folder that build and measure crates."""
import importlib.machinery
import importlib.util
import shutil
import sys
from pathlib import Path
from types import ModuleType

ROOT = Path(__file__).resolve().parent.parent


def rtlib() -> ModuleType:
    """Its library, set to give crates the statements of those below, as the gate does."""
    path = Path(shutil.which("rt") or sys.exit("the command rt is not there")).resolve().parent / "rtlib.py"
    loader = importlib.machinery.SourceFileLoader("rtlib", str(path))
    module = importlib.util.module_from_spec(importlib.util.spec_from_loader("rtlib", loader))
    sys.modules["rtlib"] = module
    loader.exec_module(module)
    module.guarded()
    module.Crate.cuts_libraries = True
    return module
