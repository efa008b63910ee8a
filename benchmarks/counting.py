"""Functions that the measuring programs share. They run commands that must succeed, and count instructions by callgrind."""
from __future__ import annotations

import os
import re
import subprocess
import sys
import tempfile
from pathlib import Path
from typing import NoReturn, Sequence

sys.dont_write_bytecode = True
TOP = Path(__file__).resolve().parent.parent
# Callgrind counts a string instruction once for each octet that it copies. With this setting the C library copies by moves.
MOVES = "glibc.cpu.x86_rep_movsb_threshold=10000000"
# The loads of a bare channel: a round, its word, and the smaller and the larger number of rounds that are made.
LOADS = (("a Type-AD frame of 13 octets, its release and its take", "sequenced", 1_000, 11_000),
         ("a Type-BD frame of 13 octets, and its take", "bypassing", 1_000, 11_000),
         ("a Type-BD frame with 100 packets, and each take", "packets", 100, 300),
         ("65 Type-BD frames with a unit of 65,542 octets, and its take", "segments", 20, 60))


def stop(why: str) -> NoReturn:
    """Exits with status 1, and prints the reason on standard error."""
    sys.exit(f"benchmarks/{Path(sys.argv[0]).name}: {why}")


def output(words: Sequence[object], given: str = "", folder: Path = TOP, **names: str) -> str:
    """Returns the output of a command for an input, and stops if the command fails."""
    ran = subprocess.run([str(word) for word in words], cwd=folder, input=given, env={**os.environ, "GLIBC_TUNABLES": MOVES, **names},
                         capture_output=True, text=True, check=False)
    if ran.returncode != 0:
        stop(f"{' '.join(map(str, words))}: status {ran.returncode}\n{ran.stdout[-2000:]}{ran.stderr[-2000:]}")
    return ran.stdout


def instructions(words: Sequence[object], given: str = "", within: Sequence[str] = ()) -> int:
    """Returns how many instructions a program and its children take, or how many its functions in `within` take."""
    with tempfile.TemporaryDirectory() as room:
        counted = ["valgrind", "--tool=callgrind", "--callgrind-out-file=/dev/null", "--trace-children=yes", f"--log-file={room}/%p"]
        output([*counted, *(f"--toggle-collect={name}" for name in within), *words], given)
        found = [int(count) for log in Path(room).iterdir() for count in re.findall(r"Collected : (\d+)", log.read_text(encoding="utf-8"))]
    if not found:
        stop(f"{' '.join(map(str, words))}: callgrind counted nothing")
    return sum(found)
