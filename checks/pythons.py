"""Finds other versions of Python on this machine, which are on the path or installed by pyenv. Checks try with them what the pages say about
Python 3.9 and older ones."""
from __future__ import annotations

import shutil
import subprocess


def said(*words: str) -> str:
    """Returns what a command prints, or nothing if it isn't installed or fails."""
    try:
        ran = subprocess.run(words, capture_output=True, text=True, stdin=subprocess.DEVNULL, check=False)
    except OSError:
        return ""
    return ran.stdout.strip() if ran.returncode == 0 else ""


def find(version: str) -> str | None:
    """Returns the command of a version, for example 3.9, or None if that version isn't installed."""
    kept = [said("pyenv", "prefix", name) + "/bin/python3" for name in said("pyenv", "versions", "--bare").split() if name.startswith(version + ".")]
    for command in [f"python{version}", *kept]:
        if (found := shutil.which(command)) and said(found, "-c", "import sys; print('%d.%d' % sys.version_info[:2])") == version:
            return found
    return None
