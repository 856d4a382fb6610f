"""The kit's command rt as a module, and the libraries that its rt ci has just proved."""
import importlib.machinery
import os
import subprocess
import sys
import types
from pathlib import Path

TOP = Path(__file__).resolve().parent.parent
KIT = Path(subprocess.run(["rt", "doc"], capture_output=True, text=True, check=True).stdout.strip()).parent


def load_rt():
    """The kit's command rt, whose own reading of edits, checks and lanes the scripts share."""
    sys.dont_write_bytecode = True
    rt = types.ModuleType("rt")
    rt.__file__ = str(KIT / "bin" / "rt")
    importlib.machinery.SourceFileLoader("rt", rt.__file__).exec_module(rt)
    rt.rtlib.guarded()
    return rt


def has_libraries(crate, is_just_proved):
    """Has the libraries below the crate proved: by rt ci, which leaves them with no stamp, or now."""
    if is_just_proved and not any(os.path.exists(f"{it.folder}/out/rlib/stamp") for it in crate.below()):
        return True
    return not any(it.build_rlib(["--jobs", "1"], anew=False) for it in crate.below())
