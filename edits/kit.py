"""The module that `rt` itself runs on, and the crates of this repository as it sees them."""
import importlib.machinery
import importlib.util
import subprocess
import sys
from pathlib import Path

sys.dont_write_bytecode = True
TOP = Path(__file__).resolve().parent.parent


def kit_library():
    """`rt doc` prints the path of a page at the top of the kit."""
    page = subprocess.run(["rt", "doc"], capture_output=True, text=True, check=True).stdout.strip()
    loader = importlib.machinery.SourceFileLoader("rtlib", f"{Path(page).parent}/bin/rtlib.py")
    made = importlib.util.module_from_spec(importlib.util.spec_from_loader("rtlib", loader))
    sys.modules["rtlib"] = made
    loader.exec_module(made)
    return made


def crates_of(rtlib):
    """The crates by name, lowest first."""
    found = sorted(rtlib.crates_below(str(TOP)), key=lambda it: len(it.below()))
    return {it.name: it for it in found}
