"""The manual pages that tools/man writes, and the completion for Bash. Each page must be formatted without a warning, and have its sections in their
order and the code of its reference page. It must name the commands and options of the program's help, and the completion must offer these."""
from __future__ import annotations

import re
import shutil
from pathlib import Path
from typing import Dict, List, NamedTuple, Set

import pytest
from comparing import TOP, run
from program_parts import stands_in

PROGRAMS = ("tcrx", "tclive", "tcmake", "tcrx-bench")
SECTIONS = ["NAME", "SYNOPSIS", "DESCRIPTION", "OPTIONS", "INPUT", "OUTPUT", "EXIT STATUS", "DIAGNOSTICS", "EXAMPLES", "SEE ALSO"]
# The commands of each program. Each command has options of its own.
COMMANDS: Dict[str, List[str]] = {"tcrx": ["run", "parallel"], "tclive": [], "tcmake": [], "tcrx-bench": []}
# A script in Bash that loads a completion, and completes the last of the given words by the program's function.
COMPLETE = r"""
source "$1"
[[ $(complete -p "$2") =~ -F\ ([a-z_]+)\ "$2"$ ]] || exit 3
shift
COMP_WORDS=("$@") COMP_CWORD=$(($# - 1))
"${BASH_REMATCH[1]}"
printf '%s\n' "${COMPREPLY[@]}"
"""


class Helped(NamedTuple):
    """A program, with its version, and with the words that its help allows after each command. The key of those without a command before them is
    empty."""

    name: str
    version: str
    behind: Dict[str, Set[str]]

    def options(self) -> Set[str]:
        """Returns all options."""
        return {word for words in self.behind.values() for word in words if word.startswith("-")}


def pytest_generate_tests(metafunc: pytest.Metafunc) -> None:
    """Makes a test that takes `name` one test for each program, and one that takes `helped` one test for each program whose help is compared.
    Programs that stand in have another help."""
    if "name" in metafunc.fixturenames:
        metafunc.parametrize("name", PROGRAMS)
    if "helped" in metafunc.fixturenames:
        metafunc.parametrize("helped", PROGRAMS[3:] if stands_in(metafunc.config) else PROGRAMS, indirect=True, scope="module")


@pytest.fixture(name="folder", scope="module")
def written_pages(tmp_path_factory: pytest.TempPathFactory) -> Path:
    """Has tools/man write the pages, and returns their folder."""
    folder = tmp_path_factory.mktemp("man") / "man1"
    made = run(TOP / "tools/man", folder)
    assert (made.returncode, made.stdout, made.stderr) == (0, "", "")
    return folder


@pytest.fixture(name="helped", scope="module")
def program_with_help(request: pytest.FixtureRequest) -> Helped:
    """Returns a program with what its help and its version say."""
    name: str = request.param
    # The bench calls the library even for its help.
    built: Path = request.getfixturevalue("library" if name == "tcrx-bench" else name)
    path = TOP / name if name == "tcrx-bench" else built
    printed = run(path, "--help")
    assert (printed.returncode, printed.stderr) == (0, "")
    listed = {command for command in COMMANDS[name] if re.search(rf"^ +{command}  ", printed.stdout, re.M)}
    behind = {"": options_of(printed.stdout) | listed}
    behind.update({command: options_of(run(path, command, "--help").stdout) for command in COMMANDS[name]})
    return Helped(name, run(path, "--version").stdout.strip(), behind)


def options_of(help_text: str) -> Set[str]:
    """Returns the options that a help text lists."""
    listed = re.findall(r"^ +(-\w)?(?:, )?(--[\w-]+)?(?: <\w+>)*(?:  .*)?$", help_text, re.M)
    return {option for pair in listed for option in pair if option}


# --- How a page is formatted ---

def warnings_of(page: Path) -> str:
    """Formats a manual page by `man` and `groff`, or by `groff` alone. Returns the text on standard error. If the command fails, its status is in
    front."""
    command = ["man", "--warnings", "-E", "UTF-8", "-l"] if shutil.which("man") else ["groff", "-ww", "-z", "-man", "-Tutf8"]
    made = run(*command, page)
    return made.stderr if made.returncode == 0 else f"status {made.returncode}: {made.stderr}"


@pytest.mark.needs("groff")
def test_a_page_with_an_unknown_request_gives_a_warning(tmp_path: Path) -> None:
    """Formats a page with a fault."""
    (tmp_path / "bad.1").write_text('.TH BAD 1 "" "" ""\n.SH NAME\nbad \\- a page\n.UNKNOWN\n', encoding="ascii")
    assert warnings_of(tmp_path / "bad.1") != ""


@pytest.mark.needs("groff")
def test_a_page_is_formatted_without_a_warning(folder: Path, name: str) -> None:
    """Formats each page."""
    assert warnings_of(folder / f"{name}.1") == ""


def test_a_page_has_its_sections_in_their_order(folder: Path, name: str) -> None:
    """Reads the headings of each page. A page may have others between them."""
    headings = re.findall(r"^\.SH (.*)$", (folder / f"{name}.1").read_text(encoding="utf-8"), re.M)
    assert [heading for heading in headings if heading in SECTIONS] == SECTIONS


def test_options_can_be_copied_from_a_page(folder: Path, name: str) -> None:
    """Looks for two hyphens that roff would print as other characters."""
    assert "--" not in (folder / f"{name}.1").read_text(encoding="utf-8")


# --- What a page says ---

def plain(roff: str) -> str:
    """Returns the text of a manual page without requests and escapes, with single spaces."""
    lines = (re.sub(r'^\.(SH|SS|IP|TP|PP|RS|RE|nf|fi|br|TH|\\").*?( |$)', "", line) for line in roff.split("\n"))
    text = re.sub(r"\\f[BIR]|\\%|\\&", "", " ".join(lines))
    for escape, character in (("\\(aq", "'"), ("\\(ga", "`"), ("\\(ha", "^"), ("\\(ti", "~"), ("\\-", "-"), ("\\e", "\\")):
        text = text.replace(escape, character)
    return " ".join(text.split())


def tags_of(roff: str, section: str) -> Set[str]:
    """Returns the words that begin the items of a section, without the names of values."""
    lines = re.split(r"^\.SH ", roff.partition(f"\n.SH {section}\n")[2], flags=re.M)[0]
    tags = re.findall(r"^\.TP\n(.*)$", lines, re.M)
    return {re.sub(r"( [A-Z]+)+$", "", word) for tag in tags for word in plain(tag).split(", ")}


def missing(folder: Path, name: str, pattern: str, page: str) -> List[str]:
    """Returns which texts of a reference page that match a pattern the manual page doesn't have. There must be some that match."""
    text, found = plain((folder / f"{name}.1").read_text(encoding="utf-8")), sorted(set(re.findall(pattern, page, re.M | re.S)))
    assert found
    return [it for it in found if " ".join(it.split()) not in text]


def test_a_page_has_the_code_in_the_text_of_its_reference_page(folder: Path, name: str) -> None:
    """Looks for each span of code."""
    page = (TOP / f"docs/reference/{name}.md").read_text(encoding="utf-8")
    assert missing(folder, name, r"`([^`\n]+)`", re.sub(r"^```.*?^```$", "", page, flags=re.M | re.S)) == []


def test_a_page_has_the_blocks_of_code_of_its_reference_page(folder: Path, name: str) -> None:
    """Looks for each block of code."""
    page = (TOP / f"docs/reference/{name}.md").read_text(encoding="utf-8")
    assert missing(folder, name, r"^```\w*\n(.*?)^```$", page) == []


def test_a_page_has_the_commands_and_options_of_the_help(folder: Path, helped: Helped) -> None:
    """Compares the items of two sections with the help."""
    roff = (folder / f"{helped.name}.1").read_text(encoding="utf-8")
    assert len(helped.options()) >= 4
    assert tags_of(roff, "OPTIONS") == helped.options()
    assert tags_of(roff, "COMMANDS") == set(COMMANDS[helped.name]) == {word for word in helped.behind[""] if not word.startswith("-")}


def test_a_page_is_of_the_version_of_its_program(folder: Path, helped: Helped) -> None:
    """Compares the title of the page with what `--version` prints."""
    assert f'"{helped.version}"' in (folder / f"{helped.name}.1").read_text(encoding="utf-8").split("\n")[1]


@pytest.mark.parametrize("words", [[], ["one", "two"], ["-x"]], ids=["none", "two", "option"])
def test_a_wrong_command_line_of_the_tool_is_refused(words: List[str]) -> None:
    """Starts tools/man without a folder."""
    ran = run(TOP / "tools/man", *words)
    assert (ran.returncode, ran.stdout) == (2, "")
    assert "usage" in ran.stderr


# --- What the completion offers ---

def offered(program: str, *words: str) -> Set[str]:
    """Returns what the completion offers for the last of the words after the program's name."""
    asked = run("bash", "-c", COMPLETE, "bash", f"completion/{program}.bash", program, *words)
    assert (asked.returncode, asked.stderr) == (0, "")
    return set(asked.stdout.split("\n")) - {""}


def lines_of(helped: Helped) -> Dict[str, List[str]]:
    """Returns the words of a command line up to each command, by the command. It is empty for the command line without one."""
    return {command: [command] if command else [] for command in helped.behind}


def test_the_completion_offers_what_the_help_lists(helped: Helped) -> None:
    """Completes an empty word."""
    assert {command: offered(helped.name, *line, "") for command, line in lines_of(helped).items()} == helped.behind


def test_the_completion_of_two_hyphens_offers_the_long_options(helped: Helped) -> None:
    """Completes the beginning of a long option."""
    long = {command: {word for word in words if word.startswith("--")} for command, words in helped.behind.items()}
    assert {command: offered(helped.name, *line, "--") for command, line in lines_of(helped).items()} == long


def test_the_completion_offers_nothing_for_an_unknown_beginning_or_a_number(helped: Helped) -> None:
    """Completes a word that no word of the program begins with, and the number of the spacecraft."""
    for command, line in lines_of(helped).items():
        assert offered(helped.name, *line, "no") == set(), command
        if "--scid" in helped.behind[command]:
            assert offered(helped.name, *line, "--scid", "") == set(), command


def test_the_completion_offers_files_after_a_redirection(helped: Helped) -> None:
    """Completes the name of a file."""
    files = {path.relative_to(TOP).as_posix() for path in TOP.glob("examples/two-*")}
    assert files
    for command, line in lines_of(helped).items():
        assert offered(helped.name, *line, "<", "examples/two-") == files, command
