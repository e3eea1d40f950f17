"""The parts of the kit's command `rt`, for scripts that prove as it does."""
import importlib.machinery
import importlib.util
import pathlib
import subprocess
import sys


def from_kit():
    """The module that `rt` is."""
    page = subprocess.run(["rt", "doc"], capture_output=True, text=True, check=True).stdout.strip()
    folder = pathlib.Path(page).parent / "bin"
    sys.path.insert(0, str(folder))
    loader = importlib.machinery.SourceFileLoader("rt", str(folder / "rt"))
    module = importlib.util.module_from_spec(importlib.util.spec_from_loader("rt", loader))
    loader.exec_module(module)
    return module
