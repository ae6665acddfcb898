"""Loads the kit's command `rt` as a module, with what it knows about crates, edits, memory and processors."""

import importlib.machinery
import importlib.util
import os
import subprocess
import sys

sys.dont_write_bytecode = True


def load():
    """Returns `rt`, whose attribute `rtlib` is the library that it uses."""
    page = subprocess.run(["rt", "doc"], stdout=subprocess.PIPE, text=True, check=True).stdout.strip()
    path = os.path.join(os.path.dirname(os.path.realpath(page)), "bin", "rt")
    loader = importlib.machinery.SourceFileLoader("rt", path)
    made = importlib.util.module_from_spec(importlib.util.spec_from_loader("rt", loader))
    sys.modules["rt"] = made
    loader.exec_module(made)
    return made


rt = load()
rtlib = rt.rtlib
