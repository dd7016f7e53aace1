"""Random scripts by a seed: with every verb of docs/SCRIPT.md, refused ones too, for up to 32
processes; and small ones for threads."""
from __future__ import annotations

import functools
import random
import re
from typing import Callable

from soak_machine import Heap, Options, command_of

# How often each line comes, and what it is made of.
OFTEN = """14 alloc {x} {size} {arena}|6 split {data} {cut} {x}|8 read {data} {at} {count}
8 write {data} {at} {bytes}|6 free {data}|4 open {e} {e} {arena}{under}|14 give {end} {tag}{names}
12 take {end}{news}|4 await {end}{news}|2 close {end}|1 exit{budget}|1 kill {process}{budget}
2 again|3 glance {process}"""
LINES = [it for often, it in re.findall(r"(\d+) ([^|\n]+)", OFTEN) for _ in range(int(often))]
# What each field may be; one that is not here depends on the script so far.
FIELDS = {
    "x": "x0|x1|x2|x3|x4|x5|x6|x7", "e": "e0|e1|e2|e3|e4|e5|e6|e7", "any": "{x}|{e}",
    "cut": "0|16|16|32|48|20", "count": "1|4|16|32", "at": "0|0|0|3|12|16|4294967295",
    "tag": "0|1|2|3|0|1|2|3|0|1|2|3|65535", "budget": "|| 1| 2| 4096", "new": " {e}| {x}| {x}",
    "news": "||{new}|{new}|{new}{new}|{new}{new}{new}|" + 8 * "{new}",
    "names": "|".join([" {end}"] * 3 + [it * " {data}" for it in (0, 1, 1, 1, 2, 3, 4, 8, 9, 16)]),
}
# What a process does, with a block and an endpoint of its own at random.
WORKING = """alloc {x} {size} 0|alloc {x} {size} 0|alloc {x} {size} 0|split {x} 16 {x}|read {x} 0 4
write {x} 1 0{digit}|give {e} {digit} {x}|give {e} {digit} {x}|give {e} 9 {x} {x}|give {e} 10 {e}
take {e} {x}|take {e} {x}|take {e} {x} {x}|free {x}|free {x}|glance {me}"""
# Where something ends a give carries at most one block, and only the first process kills, which
# doesn't end.
ENDING = """alloc {x} {size} 0|alloc {x} {size} 0|alloc {x} {size} 0|give {e} {digit} {x}
give {e} {digit} {x}|give {e} {digit} {x}|give {e} 10|take {e} {x}|take {e} {x}|free {x}
glance {me}|close {e}|close {e}|{end}|{end} 1|{again}"""
CARRYING = """alloc {x} 16 7|give {e} 65535 u v w x y|give {e} 40000 y x w v u z
give {e} 32768 z y x w v u s t|give {e} {digit} {x}|take {e} u v w x y z s t
take {e} s t u v w x y z|free {x}"""
EIGHT = """alloc u 16 7|alloc v 512 6|alloc w 16 7|alloc x 48 5|alloc y 16 7|alloc z 16 0
alloc s 32 7|alloc t 16 1"""
PAIR, RING, STAR = ["a e b f"], ["a e b f", "b g c h", "c i a j"], ["a e b f", "a g c h"]
# Arenas, their bytes and the depth; the wires; what each process begins with, and the commands that
# it has at random.
SETTINGS = [((1, 144, 1), PAIR, "", WORKING), ((1, 256, 1), RING, "", WORKING),
            ((8, 1024, 16), PAIR, EIGHT, CARRYING), ((1, 4096, 2), PAIR, "", ENDING),
            ((1, 4096, 2), STAR, "", ENDING), ((8, 1024, 16), STAR, "", ENDING)]


class Maker:
    """Names are few, so that they are bound to something mostly. `waits`: there may be an await on
    threads; then the first process neither awaits nor ends, nobody starts again, and at its end it
    kills all others, so that each wait ends. `ends`: at last each process exits."""

    def __init__(self, seed: int) -> None:
        chance = random.Random(seed)
        self.pick = pick = chance.choice
        self.below = below = functools.partial(chance.randint, 0)
        self.count = pick([1, below(4) + 2, below(4) + 2, below(25) + 7])
        is_few = self.count < 7
        self.waits, self.ends = self.count > 1 and below(1), below(3)
        self.processes = [f"p{at}" for at in range(self.count)]
        self.contracts = [f"k{at}" for at in range(pick([0, 0, 1, 3]))]
        self.options: Options = {
            "--flight": None, "--arenas": pick([1, 1, 2, 8]), "--depth": pick([1, 2, 4, 16]),
            "--bytes": 16 * pick([1, 4, 9, 16, 40, 256, 4096, 65_536][0 if is_few else 4 :]),
            "--records": pick([1, 3, 8, 32, 256, 256] if is_few else [32, 256]),
            "--wear": pick([2**63 - 1] * 6 + [0, 64, 1000]),
        }
        self.by, self.heap, self.lines = "p0", Heap(self.options), list[str]()
        arenas, size = self.options["--arenas"] - 1, self.options["--bytes"]
        some = [16] * 6 + [0, 1, 15, 17, 40, 64, 100, size, 2**32 - 1]
        self.fields: dict[str, Callable[[], object]] = {
            "data": lambda: self.bound(False), "end": lambda: self.bound(True),
            "process": self.process, "size": lambda: pick(some),
            "arena": lambda: below(arenas) if below(20) else pick([8, 2**32 - 1]),
            "bytes": lambda: chance.randbytes(pick([1, 4, 32])).hex(),
            "under": lambda: f" {pick(self.contracts)}" if self.contracts and below(1) else "",
            "rows": lambda: "".join(map(self.rows, range(below(3) + 1))),
        }

    def rows(self, state: int) -> str:
        side = self.below(1)
        tags = (tag for tag in range(4) if tag == state or not self.below(2))
        return "".join(f" {state}:{tag}:{side}:{self.below(3)}" for tag in tags)

    def fill(self, line: str) -> str:
        """Fields within a field are filled in turn."""
        while at := re.search(r"{(\w+)}", line):
            field = self.fields.get(at[1], lambda: self.pick(FIELDS[at[1]].split("|")))
            line = f"{line[: at.start()]}{field()}{line[at.end() :]}"
        return line

    def process(self) -> str:
        """Mostly one that runs."""
        name = self.pick(self.processes)
        it = self.heap.processes.get(name.encode())
        is_any = it and it.state == "running" or not self.below(3)
        return name if is_any else self.pick([*self.processes, "nobody"])

    def bound(self, is_end: bool) -> str:
        """Mostly a name that the process has given to a block of this kind."""
        it = self.heap.processes.get(self.by.encode())
        held = it.names.items() if it else ()
        names = [name.decode() for name, block in held if bool(block.channel) == is_end]
        return self.pick(names) if names and self.below(15) else "{any}"

    def may(self, line: str) -> bool:
        """Whether the line may stand here, so that no wait is without an end."""
        by, verb, *words = line.split(" ")
        if not self.waits:
            return verb != "await"
        if verb in ("exit", "kill") and self.below(5):
            return False
        if verb in ("await", "exit"):
            return by != "p0"
        return verb != "again" and [verb, *words[:1]] != ["kill", "p0"]

    def add(self, line: str, is_any: bool = True) -> None:
        """A line is added that the heap does, or any; most others are passed over."""
        said = self.heap.step(*command_of(line.encode())[:3])
        if is_any or said.startswith("ok") or not self.below(5):
            self.lines.append(line)

    def script(self) -> str:
        pick, named = self.pick, self.processes + ["p0"] * self.below(1)
        named += [f"q{at}" for at in range(pick([0] * 18 + [1, 40]))]
        heads = [f"contract {it}{{rows}}" for it in self.contracts]
        for line in heads + [f"process {name}" for name in named]:
            self.add(self.fill(line))
        for _ in range(self.below(3 * self.count)):
            self.add(self.fill("wire {process} {e} {process} {e} {arena}{under}"), False)
        for _ in range(pick([20, 60, 200, 600, 2000] if self.count < 7 else [2000, 8000])):
            self.by = self.process()
            line = f"{self.by} {self.fill(pick(LINES))}"
            if len(self.lines) < 3900 and self.may(line):
                self.add(line, False)
        endings = [f"p0 kill {name}" for name in self.processes[1:] if self.waits]
        for line in endings + [f"{name} exit" for name in named if self.ends]:
            self.add(line)
        lines = ["# A comment, and an empty line.", "", *self.lines]
        return "\n".join(lines) + "\n" * self.below(1)


def make(seed: int) -> tuple[bytes, Options]:
    """The script and its options."""
    maker = Maker(seed)
    return maker.script().encode(), maker.options


def make_small(seed: int) -> tuple[bytes, Options]:
    """The script and its options. All wait for a process z, so that they begin at once; and between
    their commands are reads of nothing, which take time."""
    chance, ends = random.Random(seed), dict[str, list[str]]()
    (arenas, size, depth), wires, first, commands = SETTINGS[seed % len(SETTINGS)]
    for name, end in re.findall(r"(\w) (\w)", " ".join(wires)):
        ends.setdefault(name, []).append(end)
    lines = [f"process {name}" for name in [*ends, "z"]]
    lines += [f"wire {it} 0" for it in [*wires, *(f"z {name} {name} start" for name in ends)]]
    for me, own in ends.items():
        end, again = ("kill b", "kill c") if me == "a" else ("exit", "again")
        words: dict[str, list[str]] = {"x": [*"xyz"], "e": own, "size": ["16", "32", "48"]}
        words |= {"digit": [*"012345678"], "me": [me], "end": [end], "again": [again]}
        drawn = [chance.choice(re.split(r"\||\n", commands)) for _ in range(chance.randint(1, 7))]
        lines.append(f"{me} await start")
        for it in filter(None, [*re.split(r"\||\n", first), *drawn]):
            lines += [f"{me} read nothing 0 1"] * chance.randint(0, 160)
            filled = re.sub(r"{(\w+)}", lambda at: chance.choice(words[at[1]]), it)
            lines.append(f"{me} {filled}")
    lines += ["z read nothing 0 1"] * 400 + [f"z give {name} 0" for name in ends]
    options = {"--arenas": arenas, "--bytes": size + 64 * len(ends), "--depth": depth}
    return "\n".join(lines).encode(), {**options, "--records": 256, "--wear": 1_000_000}
