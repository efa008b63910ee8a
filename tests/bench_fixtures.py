"""The fixture by which tests start tcrx-bench. A test module that has it as `pytest_plugins` gets it."""
from __future__ import annotations

from pathlib import Path
from typing import Callable, Iterator, List

import pytest
from bench_parts import Bench


@pytest.fixture(name="bench")
# pylint: disable-next=unused-argument  # the library must be built
def start_bench(tmp_path: Path, library: Path) -> Iterator[Callable[..., Bench]]:
    """Returns a function that starts a bench in a new folder of the test. The bench is killed when the test ends."""
    begun: List[Bench] = []

    def start(*words: str, **more: object) -> Bench:
        begun.append(Bench(tmp_path, *words, **more))  # type: ignore[arg-type]
        return begun[-1]
    yield start
    for each in begun:
        if each.child.poll() is None:
            each.child.kill()
            each.ended()
