#!/usr/bin/env python3
"""Checks the header and the files in C and C++ by themselves, without the library.

The headers must compile without a warning as each version of C and C++ that they are for. The lines of code that
c/README.md shows must compile in this way, too. The static assertions of the header must reject each record with two neighbouring
fields swapped, and each record with one more field in front. The version must be the same as a number and as a text. If
doxygen is installed, it must read the header's comments without a warning.

usage: c/checks/sources.py

You can start it from any folder. The last line has the numbers of checks that passed and failed. Without doxygen its check is left out.
"""

import re
import shutil
import subprocess
import sys
import tempfile
from pathlib import Path

TOP = Path(__file__).resolve().parent.parent.parent
HEADER = TOP / "dist" / "tcrx.h"
WARNINGS = ["-Wall", "-Wextra", "-Werror", "-pedantic"]
C = [["cc", f"-std={version}", "-x", "c"] for version in ("c99", "c11", "c17")]
CXX = [["c++", f"-std={version}", "-x", "c++"] for version in ("c++11", "c++14", "c++17", "c++20")]
RECORD = re.compile(r"^typedef struct \{\n(.*?)^\} (\w+);\n", re.M | re.S)
# The names that the lines of code of the page use without declaring them.
GIVEN = "const uint8_t *octets, size_t count, uint8_t has_room, uint8_t buffer[256]"


def compiled(compiler: list[str], lines: str, folder: Path, *flags: str) -> str:
    """Returns the compiler's messages about these lines, with the header of a folder. There are none if the lines compile."""
    command = [*compiler, *flags, "-fsyntax-only", f"-I{folder}", "-"]
    done = subprocess.run(command, input=lines, capture_output=True, text=True, check=False)
    return "" if done.returncode == 0 else done.stderr or "no reason is given"


def versions() -> list[tuple[str, str]]:
    """Compiles the header in each version of each language, and the headers for C++ also with and without exceptions and RTTI."""
    said = [(compiler[1], compiled(compiler, '#include "tcrx.h"\n', HEADER.parent, *WARNINGS)) for compiler in C + CXX]
    for compiler in CXX[2:]:
        for flags in (("-fexceptions", "-frtti"), ("-fno-exceptions", "-fno-rtti")):
            for header in ("tcrx.hpp", "tcrx_lines.hpp"):
                found = compiled(compiler, f'#include "{header}"\n', HEADER.parent, *WARNINGS, *flags)
                said.append((f"{header}, {' '.join([compiler[1], *flags])}", found))
    return said


def shown_code() -> list[tuple[str, str]]:
    """Compiles the lines of code of c/README.md, in the oldest version of C and in the newest one of C++."""
    blocks = re.findall(r"^```c\n(.*?)^```$", (TOP / "c" / "README.md").read_text(), re.M | re.S)
    lines = '#include "tcrx.h"\n' + "".join(f"void shown_{i}({GIVEN}) {{\n{block}}}\n" for i, block in enumerate(blocks))
    said = [(f"the code of c/README.md, {compiler[1]}", compiled(compiler, lines, HEADER.parent)) for compiler in (C[0], CXX[-1])]
    return [*said, ("the blocks of code of c/README.md", "" if len(blocks) == 4 else f"there are {len(blocks)}")]


def changed_records(text: str) -> list[tuple[str, str]]:
    """Returns the header with one record changed, for each way that its assertions must reject, with the name of the
    record."""
    changed = []
    for record in RECORD.finditer(text):
        fields = record[1].splitlines(keepends=True)
        others = [["    uint8_t more;\n", *fields]]
        for place in range(len(fields) - 1):
            others.append([*fields[:place], fields[place + 1], fields[place], *fields[place + 2 :]])
        changed += [(record[2], text[: record.start(1)] + "".join(other) + text[record.end(1) :]) for other in others]
    return changed


def layouts() -> list[tuple[str, str]]:
    """Checks that each changed record is rejected by its own assertion, in both languages."""
    changed = changed_records(HEADER.read_text())
    said = [("the changed records", "" if len(changed) > 60 else f"there are {len(changed)}")]
    with tempfile.TemporaryDirectory() as folder:
        shutil.copy(HEADER.with_name("tcrx_at.h"), folder)
        for number, (name, text) in enumerate(changed):
            (Path(folder) / "tcrx.h").write_text(text)
            for compiler in (C[0], CXX[0]):
                refused = f"{name}_layout" in compiled(compiler, '#include "tcrx.h"\n', Path(folder))
                said.append((f"{name} changed, {number}, {compiler[1]}", "" if refused else "it compiles"))
    return said


def same_version() -> list[tuple[str, str]]:
    """Checks that the version is the same as a text and as a number."""
    text = re.search(r'#define TCRX_API_TEXT "(\d+)\.(\d+)\.(\d+)"', HEADER.read_text())
    if text is None:
        return [("the version", "there is none")]
    number = int(text[1]) << 16 | int(text[2]) << 8 | int(text[3])
    lines = f'#include "tcrx.h"\n#if TCRX_API_VERSION != {number}\n#error "another number"\n#endif\n'
    return [("the version's number", compiled(C[0], lines, HEADER.parent))]


def comments() -> list[tuple[str, str]]:
    """Returns doxygen's messages about the comments."""
    with tempfile.TemporaryDirectory() as folder:
        settings = (TOP / "c" / "Doxyfile").read_text() + f"OUTPUT_DIRECTORY = {folder}\n"
        done = subprocess.run(["doxygen", "-"], cwd=TOP, input=settings, capture_output=True, text=True, check=False)
        made = (Path(folder) / "html" / "group__tcrx__channels.html").is_file()
    said = done.stdout + done.stderr or ("" if done.returncode == 0 and made else "it makes no page")
    return [("the comments, by doxygen", said)]


def main() -> int:
    """Makes each check, and prints the results."""
    said = versions() + shown_code() + layouts() + same_version()
    has_doxygen = shutil.which("doxygen") is not None
    said += comments() if has_doxygen else []
    for what, fault in said:
        if fault:
            print(f"{what}: {fault}")
    failed = sum(bool(fault) for _, fault in said)
    print(f"sources: {len(said) - failed} passed, {failed} failed")
    return 1 if failed else 0


if __name__ == "__main__":
    sys.exit(main())
