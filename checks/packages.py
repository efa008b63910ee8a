"""Installs commands that checks need from Debian's packages."""
from __future__ import annotations

import os
import shutil
import subprocess


def install(*packages: str) -> None:
    """Installs packages, if the user is root, there is `apt-get`, and TCRX_INSTALL=no doesn't forbid it. The caller must see for itself
    whether they are there afterwards."""
    if os.environ.get("TCRX_INSTALL") == "no" or os.geteuid() != 0 or not shutil.which("apt-get"):
        return
    environment = {**os.environ, "DEBIAN_FRONTEND": "noninteractive"}
    for words in (["update"], ["install", "-y", "--no-install-recommends", *packages]):
        subprocess.run(["apt-get", "-q", *words], stdin=subprocess.DEVNULL, stdout=subprocess.DEVNULL, stderr=subprocess.DEVNULL, env=environment,
                       check=False)


def has(command: str, *packages: str) -> bool:
    """Returns whether a command is there. If it isn't, first tries to install these packages, or, if none are given, the package that has
    the name of the command."""
    if not shutil.which(command):
        install(*packages or (command,))
    return shutil.which(command) is not None
