"""Runs a program to its end, with the input and the output that a test chooses. Says which programs are compared, and which commands they have."""
from __future__ import annotations

import os
import subprocess
from contextlib import ExitStack
from pathlib import Path
from typing import Any, Dict, List, NamedTuple, Optional, Union

import pytest

FULL = Path("/dev/full")


class Ended(NamedTuple):
    """The exit status of a program, and the octets on its standard output and its standard error."""

    status: int
    out: bytes
    error: bytes


def ended(program: Path, *words: Union[str, bytes], given: Union[bytes, Path] = b"", to: Optional[Path] = None,
          errors_to: Optional[Path] = None) -> Ended:
    """Runs a program, and returns how it ended. It reads the octets `given` from a pipe, or reads the file or the folder of this path. If `to`
    or `errors_to` names a file, standard output or standard error goes there, and its octets aren't returned."""
    with ExitStack() as files:
        def opened(path: Path, flags: int) -> int:
            """Opens a file, and closes it when the program has ended."""
            file = os.open(path, flags)
            files.callback(os.close, file)
            return file

        streams: Dict[str, Any] = {"stdin": opened(given, os.O_RDONLY)} if isinstance(given, Path) else {"input": given}
        for name, path in (("stdout", to), ("stderr", errors_to)):
            streams[name] = opened(path, os.O_WRONLY) if path else subprocess.PIPE
        ran = subprocess.run([program, *words], check=False, **streams)
    return Ended(ran.returncode, ran.stdout or b"", ran.stderr or b"")


def version() -> str:
    """Returns the version in the source that all programs share."""
    source = Path(__file__).resolve().parent.parent / "crates/command_line/src/help.rt"
    found = [line.split('"')[1] for line in source.read_text(encoding="utf-8").split("\n") if line.startswith("pub(crate) const VERSION: &str = ")]
    assert len(found) == 1, found
    return found[0]


def stands_in(config: pytest.Config) -> bool:
    """Returns whether the programs stand in for those that are proved. With the option --proved the programs of --programs don't."""
    return config.getoption("programs") is not None and not config.getoption("proved")


def commands(config: pytest.Config) -> List[str]:
    """Returns the commands of tcrx. A program that stands in has no `parallel`."""
    return ["run"] if stands_in(config) else ["run", "parallel"]
