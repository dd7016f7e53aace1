"""Reads a script, and says what it answers, by docs/SCRIPT.md and by nothing of the program: its
commands or its first fault, and a heap that does commands one by one."""
from __future__ import annotations

import re
from dataclasses import dataclass, field, replace
from typing import Any, Iterator, Optional

# A line's number, the process that it is by, its verb, and its words.
Command = tuple[int, Optional[bytes], bytes, list[Any]]
# The state to which a tag leads in a state, sent from a side.
Contract = dict[tuple[Optional[int], int, int], int]
NAME, HEX, NUMBER = rb"[a-z][a-z0-9]{0,15}", rb"(?:[0-9a-f]{2}){1,32}", rb"0|[1-9][0-9]{0,9}"
RANGES = {"number": (0, 2**32 - 1), "length": (1, 32), "tag": (0, 65_535), "budget": (1, 4096)}
ROW = {"state": (0, 15), "tag": (0, 65_535), "side": (0, 1), "next": (0, 15)}
# For each verb the sorts of its words; the last may be repeated, so often at least and at most.
SORTS = """process process|wire process name process name number known*0,1
contract contract row*1,16
alloc name number number|split name number name|read name number length|write name number hex
free name|close name|open name name number known*0,1|give name tag name*0,16|take name name*0,8
await name name*0,8|exit budget*0,1|kill process budget*0,1|again budget*0,0|glance process"""
VERBS = {verb.encode(): sorts for verb, *sorts in map(str.split, re.split(r"[|\n]", SORTS))}
HEADS = b"process", b"wire", b"contract"
Options = dict[str, Any]
Reply = Optional[list[Any]]
REFUSALS = """OutOfMemory BadSize NoArena NoSpace NoRecord NotOwned NotData NotEndpoint BadCut
BadRange NoProcess Ended NoChannel Full PeerClosed Empty TooMany Twice Worn Unfinished NoPlace
Protocol""".split()
# The states of a process that has ended: its place has gone to a later one, or not. These verbs are
# of one that runs.
GONE = "ended", "replaced"
BY_RUNNING = b"open alloc split read write free give take await close".split()


class Refused(Exception):
    """Of a line: the kind of its fault. Of a command: the words of its reply, a name, and what is
    counted."""


def need(is_so: object, *words: object) -> None:
    if not is_so:
        raise Refused(*words)


def value_of(sort: str, word: bytes, ranges: dict[str, tuple[int, int]] = RANGES) -> Any:
    if sort in ranges:
        low, high = ranges[sort]
        need(re.fullmatch(NUMBER, word) and low <= int(word) <= high, "BadNumber")
        return int(word)
    if sort == "row":
        parts = word.split(b":")
        need(len(parts) == 4, "BadNumber")
        return tuple(value_of(*it, ROW) for it in zip(ROW, parts))
    if sort == "hex":
        need(re.fullmatch(HEX, word), "BadHex")
    else:
        need(re.fullmatch(NAME, word) and word not in HEADS, "BadWord")
    return word


def command_of(line: bytes) -> tuple[bytes | None, bytes, list[Any], list[str]]:
    """The process that it is by, its verb, its words, and their sorts."""
    need(all(0x20 <= byte <= 0x7E for byte in line), "BadByte")
    words, by = line.split(b" "), None
    need(b"" not in words, "BadWord")
    if words[0] not in HEADS:
        by = value_of("name", words.pop(0))
        need(words, "BadCount")
        need(words[0] in VERBS and words[0] not in HEADS, "BadWord")
    verb, *words = words
    *sorts, last = VERBS[verb]
    last, _, bounds = last.partition("*")
    low, high = map(int, (bounds or "1,1").split(","))
    need(low <= len(words) - len(sorts) <= high, "BadCount")
    sorts += [last] * (len(words) - len(sorts))
    return by, verb, list(map(value_of, sorts, words)), sorts


def declare(verb: bytes, by: bytes | None, values: list[Any], sorts: list[str],
            names: dict[bytes | None, set[bytes]], contracts: set[bytes]) -> None:
    """Takes the line's names into those of blocks of each process, and into those of contracts."""
    if verb == b"contract":
        name, *rows = values
        need(name not in contracts and len({row[:2] for row in rows}) == len(rows), "BadContract")
        need(len({row[0] for row in rows}) == len({row[:3:2] for row in rows}), "BadContract")
        contracts.add(name)
    holder = names.setdefault(by, set())
    for sort, value in zip(sorts, values):
        need(sort != "known" or value in contracts, "BadContract")
        if sort == "process":
            holder = names.setdefault(value, set())
        elif sort == "name":
            holder.add(value)


def read(text: bytes) -> tuple[list[Command], tuple[int, str] | None]:
    """The commands; and the line and the kind of the first fault, if there is one."""
    commands: list[Command] = []
    names, contracts = dict[Optional[bytes], set[bytes]]({None: set()}), set[bytes]()
    if len(text) > 1_048_576:
        return commands, (0, "TooLong")
    for number, line in enumerate(text.split(b"\n"), 1):
        try:
            need(len(line) <= 256, "LongLine")
            if line and not line.startswith(b"#"):
                by, verb, values, sorts = command_of(line)
                need(by or not commands or not commands[-1][1], "LateHead")
                declare(verb, by, values, sorts, names, contracts)
                commands.append((number, by, verb, values))
                need(len(commands) <= 4096 and len(names) <= 65, "TooLong")
                need(len(contracts) <= 16 and max(map(len, names.values())) <= 256, "TooLong")
        except Refused as fault:
            return commands, (number, str(fault))
    return commands, None


@dataclass
class Arena:
    """Its units are for each 16 bytes a `.` where they are free."""

    size: int
    units: bytearray
    records: int = 0
    taken: int = 0
    back: int = 0


@dataclass(eq=False)
class Channel:
    """Of each side whether it is open, the messages on their way to it, and how many were taken."""

    rows: Contract
    is_open: list[bool] = field(default_factory=lambda: [True, True])
    waiting: list[list[Message]] = field(default_factory=lambda: [[], []])
    taken: list[int] = field(default_factory=lambda: [0, 0])


@dataclass(eq=False)
class Block:
    """As an endpoint it has a channel, its side and the state of its contract."""

    arena: Arena
    start: int
    data: bytearray
    side: int
    channel: Channel | None
    state: int | None


Message = tuple[int, list[Block]]


class Process:
    def __init__(self, name: bytes, number: int) -> None:
        self.name, self.number, self.state = name, number, "running"
        self.held: list[Block] = []
        self.names: dict[bytes, Block] = {}

    def bind(self, name: bytes, block: Block) -> None:
        self.held.append(block)
        self.names[name] = block

    def unbind(self, gone: list[Block]) -> None:
        self.held = [it for it in self.held if it not in gone]
        self.names = {name: it for name, it in self.names.items() if it not in gone}

    def block(self, name: bytes) -> Block:
        need(name in self.names, "NotOwned")
        return self.names[name]

    def data(self, name: bytes) -> Block:
        need(not self.block(name).channel, "NotData")
        return self.names[name]

    def end(self, name: bytes) -> tuple[Block, Channel]:
        block = self.block(name)
        if not block.channel:
            raise Refused("NotEndpoint")
        return block, block.channel


def size_of(blocks: list[Block]) -> int:
    return sum(len(it.data) for it in blocks)


class Heap:
    def __init__(self, options: Options) -> None:
        self.options, size = options, options["--bytes"]
        units = b"." * (size // 16)
        self.arenas = [Arena(size, bytearray(units)) for _ in range(options["--arenas"])]
        self.channels: list[Channel] = []
        self.contracts: dict[bytes, Contract] = {}
        self.places: list[Process] = []
        self.processes: dict[bytes, Process] = {}

    def step(self, by: bytes | None, verb: bytes, values: list[Any]) -> str:
        """The reply, without the line's number."""
        try:
            who = self.running(by) if verb in BY_RUNNING else by
            act = getattr(self, f"do_{verb.decode()}".replace("await", "take"))
            words = ["ok", *(act(who, *values) or [])]
        except Refused as refused:
            words = ["no", REFUSALS.index(refused.args[0]) + 1, *refused.args]
        return " ".join(map(str, words))

    def ask(self, is_so: object, *words: object) -> None:
        """What may be otherwise on threads; where it isn't so that is the refusal."""
        need(is_so, *words)

    def process(self, name: bytes | None) -> Process:
        if name not in self.processes:
            raise Refused("NoProcess")
        return self.processes[name]

    def running(self, name: bytes | None, *states: str) -> Process:
        """A process that runs, or is in one of these states."""
        process = self.process(name)
        need(process.state in ("running", *states), "Ended")
        return process

    def fill(self, arena: Arena, start: int, length: int, byte: bytes) -> None:
        arena.units[start // 16 : (start + length) // 16] = byte * (length // 16)

    def carve(self, arena: Arena, lengths: list[int], channel: Channel | None) -> list[Block]:
        """New blocks side by side; under a channel its endpoints."""
        length = sum(lengths)
        self.ask(arena.records + len(lengths) <= self.options["--records"], "NoRecord")
        start = 16 * arena.units.find(b"." * (length // 16))
        self.ask(start >= 0, "NoSpace")
        self.ask(arena.taken + length <= self.options["--wear"], "Worn")
        self.fill(arena, start, length, b"#")
        arena.records += len(lengths)
        arena.taken += length
        state = next(iter(channel.rows), (None,))[0] if channel else None
        return [Block(arena, start + it * side, bytearray(it), side, channel, state)
                for side, it in enumerate(lengths)]

    def give_back(self, block: Block) -> int:
        length = len(block.data)
        self.fill(block.arena, block.start, length, b".")
        block.arena.back += length
        block.arena.records -= 1
        return length

    def place(self, name: bytes) -> Process:
        """A new process in the first place that is free, or a new one."""
        free = (at for at, it in enumerate(self.places) if it.state == "ended" and it.number < 4064)
        at = next(free, len(self.places))
        need(at < 32, "NoPlace")
        number = at
        for before in self.places[at : at + 1]:
            before.state, number = "replaced", before.number + 32
        self.places[at : at + 1] = [Process(name, number)]
        return self.places[at]

    def do_process(self, _: None, name: bytes, is_new: bool = True) -> Reply:
        need(not is_new or name not in self.processes, "Twice")
        self.processes[name] = self.place(name)
        return [self.processes[name].number]

    def do_contract(self, _: None, name: bytes, *rows: tuple[int, int, int, int]) -> None:
        self.contracts[name] = {row[:3]: row[3] for row in rows}

    def do_wire(self, _: None, p: bytes, e: bytes, q: bytes, f: bytes, number: int,
                contract: bytes = b"") -> None:
        low, high = self.running(p), self.running(q)
        need(number < len(self.arenas), "NoArena")
        self.ask(len(self.channels) < 64, "NoChannel")
        channel = Channel(self.contracts.get(contract, {}))
        ends = self.carve(self.arenas[number], [32, 32], channel)
        self.channels.append(channel)
        low.bind(e, ends[0])
        high.bind(f, ends[1])

    def do_open(self, process: Process, e: bytes, f: bytes, *rest: Any) -> None:
        self.do_wire(None, process.name, e, process.name, f, *rest)

    def do_alloc(self, process: Process, x: bytes, count: int, number: int) -> Reply:
        need(number < len(self.arenas), "NoArena")
        need(0 < count <= self.arenas[number].size, "BadSize")
        self.ask(True, "OutOfMemory")
        length = -(-count // 16) * 16
        process.bind(x, *self.carve(self.arenas[number], [length], None))
        return [length]

    def do_split(self, process: Process, x: bytes, at: int, t: bytes) -> Reply:
        block = process.data(x)
        need(at % 16 == 0 and 0 < at < len(block.data), "BadCut")
        self.ask(True, "OutOfMemory")
        self.ask(block.arena.records < self.options["--records"], "NoRecord")
        block.arena.records += 1
        tail = replace(block, start=block.start + at, data=block.data[at:])
        del block.data[at:]
        process.bind(t, tail)
        return [at, len(tail.data)]

    def do_read(self, process: Process, x: bytes, at: int, count: int) -> Reply:
        data = process.data(x).data
        need(at + count <= len(data), "BadRange")
        return [data[at : at + count].hex()]

    def do_write(self, process: Process, x: bytes, at: int, text: bytes) -> None:
        new = bytes.fromhex(text.decode())
        self.do_read(process, x, at, len(new))
        process.names[x].data[at : at + len(new)] = new

    def do_free(self, process: Process, x: bytes) -> Reply:
        block = process.data(x)
        process.unbind([block])
        return [self.give_back(block)]

    def look(self, process: Process, blocks: list[Block]) -> None:
        """Of a give, at what it gives."""

    def do_give(self, process: Process, e: bytes, tag: int, *names: bytes) -> Reply:
        end, channel = process.end(e)
        to, state = 1 - end.side, channel.rows.get((end.state, tag, end.side))
        need(len(names) <= 8, "TooMany")
        blocks = [process.block(name) for name in names]
        need(len({*blocks, end}) > len(blocks), "Twice")
        need(not channel.rows or state is not None, "Protocol")
        self.look(process, blocks)
        self.ask(channel.is_open[to], "PeerClosed", len(blocks))
        self.ask(len(channel.waiting[to]) < self.options["--depth"], "Full", len(blocks))
        process.unbind(blocks)
        end.state = state
        channel.waiting[to].append((tag, blocks))
        return [channel.taken[to] + len(channel.waiting[to])]

    def do_take(self, process: Process, e: bytes, *names: bytes) -> Reply:
        end, channel = process.end(e)
        waiting = channel.waiting[end.side]
        self.ask(waiting or channel.is_open[1 - end.side], "PeerClosed")
        self.ask(waiting, "Empty")
        channel.taken[end.side] += 1
        tag, blocks = waiting.pop(0)
        end.state = channel.rows.get((end.state, tag, 1 - end.side))
        process.names.update(zip(names, blocks))
        process.held += blocks
        return [channel.taken[end.side], tag, *(len(it.data) for it in blocks)]

    def sweep(self, blocks: list[Block], budget: int = 4096) -> Reply:
        """The bytes that so many of the blocks give back, with what is on its way to endpoints
        among them in turn."""
        count = 0
        while blocks and budget:
            block = blocks.pop(0)
            budget -= 1
            if block.channel:
                block.channel.is_open[block.side] = False
                while waiting := block.channel.waiting[block.side]:
                    blocks += waiting.pop(0)[1]
            count += self.give_back(block)
        need(not blocks, "Unfinished", len(blocks))
        return [count]

    def do_close(self, process: Process, e: bytes) -> Reply:
        end, _ = process.end(e)
        process.unbind([end])
        return self.sweep([end])

    def end(self, process: Process, budget: int) -> Reply:
        process.state = "ending"
        back = self.sweep(process.held, budget)
        process.state = "ended"
        return back

    def do_exit(self, by: bytes, budget: int = 4096) -> Reply:
        return self.end(self.running(by, "ending"), budget)

    def do_kill(self, by: bytes, other: bytes, budget: int = 4096) -> Reply:
        self.running(by)
        process = self.process(other)
        need(process.state not in GONE, "Ended")
        return self.end(process, budget)

    def do_again(self, by: bytes) -> Reply:
        self.ask(self.process(by).state in GONE, "Twice")
        return self.do_process(None, by, False)

    def do_glance(self, by: bytes, other: bytes) -> Reply:
        self.process(by)
        process = self.process(other)
        self.ask(process.state != "replaced", "Ended")
        return [len(process.held), size_of(process.held)]

    def ways(self) -> dict[tuple[Channel, int], list[Block]]:
        """The blocks in flight in each direction."""
        return {(channel, side): [it for _, blocks in waiting for it in blocks]
                for channel in self.channels for side, waiting in enumerate(channel.waiting)}

    def ledger(self) -> Iterator[str]:
        for at, arena in enumerate(self.arenas):
            holes, out = sum(map(bool, arena.units.split(b"#"))), arena.taken - arena.back
            yield f"arena {at} {arena.size} {out} {holes} {arena.taken} {arena.back}"
        for it in self.places:
            yield f"process {it.name.decode()} {it.state} {len(it.held)} {size_of(it.held)}"
        yield f"owned {sum(size_of(it.held) for it in self.places)}"
        yield f"flight {sum(map(size_of, self.ways().values()))}"
        yield f"out {sum(it.taken - it.back for it in self.arenas)}"
        for way, blocks in enumerate(self.ways().values()):
            if blocks and "--flight" in self.options:
                yield f"direction {way} {len(blocks)} {size_of(blocks)}"
