"""What the scripts ask of Rattle's kit."""

import importlib.machinery
import importlib.util
import os
import re
import shutil
import subprocess
import sys
from typing import Any


def code_of_the_kit() -> Any:
    """The kit's `rt` as a module."""
    path = os.path.realpath(shutil.which("rt") or "rt")
    loader = importlib.machinery.SourceFileLoader("rt_of_the_kit", path)
    made = importlib.util.module_from_spec(importlib.util.spec_from_loader("rt_of_the_kit", loader))
    sys.modules["rt_of_the_kit"] = made
    loader.exec_module(made)
    return made


def logic() -> str:
    """The logic by which the kit proves: the word behind `logic` of `rt version`. Kits of one logic prove the same, and
    have another name on another machine."""
    told = subprocess.run(["rt", "version"], stdout=subprocess.PIPE, check=True, text=True).stdout
    found = re.search(r"\blogic (\w+)", told)
    return found[1] if found else sys.exit("`rt version` names no logic: %s" % told.strip())
