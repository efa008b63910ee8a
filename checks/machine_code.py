"""Reads the machine code of a program for x86-64. It finds which functions some functions reach, and in these the writes to global variables,
floating point, locks, system calls and the most stack.

`objdump` disassembles the program. A function reaches the functions that it calls or jumps to. Of a function outside of the program, such as
`memcpy` of the C library, only the name is known.
"""
import re
import subprocess
from dataclasses import dataclass, field
from functools import cached_property
from pathlib import Path
from typing import Dict, List, Optional, Set

HEAD = re.compile(r"^[0-9a-f]+ <(.+)>:$")
LINE = re.compile(r"^ +[0-9a-f]+:\t(?:(?:notrack|bnd|rep|repz|repnz|data16|cs) )*(lock )?(\S+) *(.*)$")
TARGET = re.compile(r"<(.+?)(?:\+0x[0-9a-f]+)?>$")
FLOATING = re.compile(r"^(?:v?(?:h?add|h?sub|mul|div|sqrt|max|min|cmp|u?comi|round|rcp|rsqrt|dp)[sp][sd]|v?cvt\w*|vfn?m\w+|f[a-z0-9]+)$")
JUMP = re.compile(r"^(?:call|jmp|j[a-z]+)q?$")
READS = re.compile(r"^(?:cmp|test|bt|push|call|jmp|lea|nop|prefetch|ucomi|comi|ptest|vptest)")
# The bytes below the stack pointer to which a function may write if it calls no other.
RED_ZONE = 128


@dataclass
class Function:
    """A function. `targets` has the functions that it calls or jumps to, `pushes` the number of its pushes, and `reserved` the bytes that it
    reserves on the stack. The lists have the instructions that can't be followed, and those that no call may have."""

    name: str
    targets: Set[str] = field(default_factory=set)
    pushes: int = 0
    reserved: int = 0
    unknown: List[str] = field(default_factory=list)
    floating: List[str] = field(default_factory=list)
    locked: List[str] = field(default_factory=list)
    written: List[str] = field(default_factory=list)
    system: List[str] = field(default_factory=list)

    @property
    def frame(self) -> int:
        """Returns the most bytes of the function's own frame, with its return address."""
        return 8 * self.pushes + self.reserved + 8

    def take(self, lock: Optional[str], word: str, operands: str, before: List[str]) -> None:
        """Notes an instruction. `before` has the instructions before it, which show whether a jump goes through a table of this function."""
        text = f"{word} {operands}".strip()
        places = operands.partition("#")[0]
        last = re.split(r",(?![^(]*\))", places.strip())[-1]
        if JUMP.match(word):
            self.take_jump(word, operands, before, text)
        elif word.startswith("push"):
            self.pushes += 1
        elif found := re.match(r"\$0x([0-9a-f]+),%rsp$", places.strip()):
            self.take_reserved(word, int(found[1], 16), text)
        elif last == "%rsp" and word not in ("cmp", "test"):
            self.unknown += [] if word in ("mov", "lea") and "%rbp" in places else [text]
        elif "(%rip)" in last and not READS.match(word):
            self.written.append(text)
        self.floating += [text] if FLOATING.match(word) else []
        self.locked += [text] if lock or (word.startswith("xchg") and "(" in places) else []
        self.system += [text] if word in ("syscall", "int", "sysenter") else []

    def take_jump(self, word: str, operands: str, before: List[str], text: str) -> None:
        """Notes a call or a jump. Its target must be named, or it must go through a table of this function."""
        found = TARGET.search(operands.strip())
        if found and (not operands.startswith("*") or "(%rip)" in operands):
            # A jump to a place in the function itself is a loop.
            self.targets |= {found[1]} if found[1] != self.name or word.startswith("call") else set()
        else:
            # For a jump through a table, a distance is loaded from the table, and the address of the table is added to it.
            made = [it for it in before if it.endswith(f",{operands.strip()[1:]}")][-2:]
            is_table = word.startswith("jmp") and len(made) == 2 and made[0].startswith("movslq (") and made[1].startswith("add ")
            self.unknown += [] if is_table else [text]

    def take_reserved(self, word: str, octets: int, text: str) -> None:
        """Notes bytes that are reserved on the stack or released."""
        if octets >= 1 << 63:
            word, octets = ("sub" if word.startswith("add") else "add"), (1 << 64) - octets
        if word.startswith("sub"):
            self.reserved += octets
        elif not word.startswith(("add", "and", "cmp")):
            self.unknown.append(text)


@dataclass
class Reached:
    """The functions that some functions reach, the names of those outside of the program, and a cycle of calls, if there is one."""

    functions: List[Function]
    outside: Set[str]
    cycle: List[str]


class Program:
    """A program that is disassembled when it is first looked at."""

    def __init__(self, path: Path):
        self.path = path
        self.stacks: Dict[str, int] = {}

    @cached_property
    def functions(self) -> Dict[str, Function]:
        """Disassembles the program, and returns its functions by their symbols."""
        words = ["objdump", "-d", "--no-show-raw-insn", "-w", str(self.path)]
        printed = subprocess.run(words, capture_output=True, text=True, check=True).stdout
        functions: Dict[str, Function] = {}
        current, before = Function(""), [""]
        for line in printed.splitlines():
            if head := HEAD.match(line):
                current, before = functions.setdefault(head[1], Function(head[1])), []
            elif found := LINE.match(line):
                current.take(found[1], found[2], found[3], before)
                before.append(f"{found[2]} {found[3]}".strip())
        return functions

    def reached(self, roots: List[str], given: Optional[Set[str]] = None) -> Reached:
        """Follows all calls and jumps from the functions `roots`. Functions whose names are in `given` count as outside of the program."""
        done: Dict[str, Function] = {}
        outside: Set[str] = set()
        cycle: List[str] = []
        way: List[str] = []

        def visit(name: str) -> None:
            if name in way and not cycle:
                cycle.extend([*way[way.index(name):], name])
            if name in done or name in way:
                return
            function = self.functions.get(name)
            if function is None or "@plt" in name or name in (given or set()):
                outside.add(re.sub(r"@.*", "", name))
                return
            way.append(name)
            for target in sorted(function.targets):
                visit(target)
            way.pop()
            done[name] = function

        for root in roots:
            visit(root)
        return Reached(list(done.values()), outside, cycle)

    def stack_of(self, name: str) -> int:
        """Returns the most bytes of stack that a function takes together with all that it reaches in the program. There must be no cycle."""
        if name not in self.stacks:
            function = self.functions.get(name)
            if function is None or "@plt" in name:
                self.stacks[name] = 8
            else:
                below = [self.stack_of(target) for target in function.targets]
                self.stacks[name] = function.frame + max(below, default=RED_ZONE)
        return self.stacks[name]
