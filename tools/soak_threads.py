"""What is so of a run of a script on threads, whatever its schedule was; and the search for an
order of its commands in which the heap of soak_machine.py has the same replies and ledger."""
from __future__ import annotations

import contextlib
import itertools
import pickle
import re
from typing import Any, Iterable

from judging import Answer, claim, claim_same
from soak_machine import (Arena, Block, Command, Heap, Message, Options, Process, Refused, Reply,
                          need, read, size_of)

# Of a process: what is not yet followed of it, each a verb, its words, and the words of its reply.
Own = list[tuple[bytes, list[Any], list[str]]]
# A command without its line, and its reply.
Replied = tuple[tuple[Any, ...], str]
# No search for an order has more steps of the heap than this.
STEPS = 4000


class Later(Exception):
    """What the command needs isn't followed yet, a message of another process; or which blocks came
    back isn't said."""


class Follower(Heap):
    """It goes on from a heap that has done the heads. Commands are answered with the words `said`,
    which decide what others have a part in. `mortal` are the names of processes that ended at some
    time, and `victims` of those that were killed; `reclaimed` counts the bytes that endings and
    closings gave back, all of them unless the run `is_partial`."""

    def __init__(self, heads: Heap, mortal: set[bytes], victims: set[bytes]) -> None:
        vars(self).update(vars(heads))
        self.mortal, self.victims = mortal, victims
        self.reclaimed, self.is_partial, self.is_sure = 0, False, True
        self.said: list[str] = []
        self.drained: list[list[Message]] = []

    def follow(self, by: bytes, own: Own) -> int:
        """Goes on until a message isn't given yet; how far it came on."""
        count = len(own)
        with contextlib.suppress(Later):
            for verb, values, self.said in [*own]:
                wanted = self.step(by, verb, values)
                claim(wanted == " ".join(self.said), f"wanted {wanted} of {by!r} {verb!r} {values}")
                del own[0]
        return count - len(own)

    def ask(self, is_so: object, *words: object) -> None:
        need(words[0] not in self.said[2:3], *words)

    def running(self, name: bytes | None, *states: str) -> Process:
        """One that has ended says so until it starts again."""
        process = self.process(name)
        if "Ended" in self.said:
            claim(name in self.mortal, f"{name!r} has ended, and nobody ended it")
            process.state = "ending" if process.state == "running" else process.state
        lives = process.state in ("running", *states)
        self.ask(lives, "Ended")
        claim(lives, f"{name!r} goes on after its end: {self.said}")
        return process

    def fill(self, arena: Arena, start: int, length: int, byte: bytes) -> None:
        """It isn't known where a block lies."""

    def place(self, name: bytes) -> Process:
        self.ask(True, "NoPlace")
        claim(int(self.said[1]) < 4096, f"no process: {self.said}")
        return Process(name, int(self.said[1]))

    def look(self, process: Process, blocks: list[Block]) -> None:
        """Where the peer closed in its midst, perhaps, what was sent is reclaimed there."""
        if "PeerClosed" in self.said:
            back = int(self.said[3])
            if 0 < back < len(blocks):
                self.is_sure = False
                raise Later
            process.unbind(blocks[back:])
            raise Refused("PeerClosed", back)

    def do_take(self, process: Process, e: bytes, *names: bytes) -> Reply:
        end, channel = process.end(e)
        waiting = channel.waiting[end.side]
        if "PeerClosed" in self.said:
            self.drained.append(waiting)
        elif not waiting and "Empty" not in self.said:
            raise Later
        return super().do_take(process, e, *names)

    def sweep(self, blocks: list[Block], budget: int = 4096) -> Reply:
        count = int(self.said[-1])
        if "Unfinished" in self.said:
            self.is_partial = True
            claim(1 <= count <= 2048, f"so many are left: {count}")
            raise Refused("Unfinished", count)
        claim(count % 16 == 0, f"so many bytes come back: {count}")
        self.reclaimed += count
        return [count]

    def do_close(self, process: Process, e: bytes) -> Reply:
        back = super().do_close(process, e)
        claim(back and back[0] >= 32, f"so many bytes come back: {back}")
        return back

    def do_kill(self, by: bytes, other: bytes, budget: int = 4096) -> Reply:
        """It isn't known when another ends."""
        if "Ended" in self.said:
            claim({by, other} & self.mortal, f"{by!r} or {other!r} has ended, and nobody ended it")
            raise Refused("Ended")
        self.running(by)
        process = self.process(other)
        return self.end(process, budget) if by == other else self.sweep(process.held, budget)

    def do_again(self, by: bytes) -> Reply:
        number = super().do_again(by)
        claim(by in self.mortal, f"{by!r} starts again, and nobody ended it")
        return number

    def do_glance(self, by: bytes, other: bytes) -> Reply:
        held = super().do_glance(by, other)
        if by == other and self.is_certain(self.processes[by]):
            return held
        blocks, count = map(int, self.said[1:])
        claim(16 * blocks <= count and count % 16 == 0, f"so many blocks and bytes: {self.said}")
        return [blocks, count]

    def is_certain(self, process: Process) -> bool:
        """Whether it is known what the process holds."""
        return process.state == "running" and process.name not in self.victims


def follow(commands: list[Command], options: Options, lines: list[str], may_starve: bool) -> None:
    """Claims what is so: each process's commands in their order, a take behind its give. Numbers of
    messages, lengths and bytes are certain, since who holds an endpoint is; what is left to the
    schedule is as was said."""
    heads, waiting = Heap(options), dict[Any, Own]()
    mortal, victims = set[bytes](), set[bytes]()
    claim(sum("OutOfMemory" in line for line in lines) <= may_starve, "OutOfMemory")
    for (number, by, verb, values), line in zip(commands, lines):
        at, *said = line.split(" ")
        is_reply = at == str(number) and said[:1] in (["ok"], ["no"])
        is_reply &= all(map(str.isalnum, said)) and not (verb == b"await" and "Empty" in said)
        claim(is_reply, f"no reply of line {number}: {line}")
        waiting.setdefault(by, []).append((verb, values, said))
        if verb in (b"exit", b"kill") and (said[0] == "ok" or "Unfinished" in said):
            mortal.add(by if verb == b"exit" and by else values[0])
            victims |= {values[0]} if verb == b"kill" else set()
    for verb, values, said in waiting.pop(None, []):
        wanted = heads.step(None, verb, values)
        claim(wanted == " ".join(said), f"wanted {wanted} of {verb!r} {values}")
    heap = Follower(heads, mortal, victims)
    while any([heap.follow(by, own) for by, own in waiting.items()]):
        pass
    if heap.is_sure:
        left = [own[0] for own in waiting.values() if own]
        claim(not left, f"what was taken nobody gave: {left}")
        claim(not any(heap.drained), "what was given to a closed peer's end was not taken there")
        judge_ledger(heap, lines[len(commands) :])


def judge_ledger(heap: Follower, lines: list[str]) -> None:
    """Sums, and what is known of each process."""
    rows, out, back = [line.split(" ") for line in lines], 0, 0
    form = "(arena ){%d}(process )*owned flight out (direction )*" % len(heap.arenas)
    claim(re.fullmatch(form, "".join(f"{row[0]} " for row in rows)), f"no ledger: {lines}")
    kinds = "arena", "process", "owned flight out", "direction"
    arenas, places, sums, ways = ([row[1:] for row in rows if row[0] in it] for it in kinds)
    for at, (row, arena) in enumerate(zip(arenas, heap.arenas)):
        here, holes, came, went = map(int, row[2:])
        known = [str(at), str(arena.size)], arena.taken, came - went
        claim((row[:2], came, here) == known and went >= arena.back, f"an arena: {row}")
        claim((holes > 0) == (here < arena.size) and holes * 16 <= arena.size - here, f"{row}")
        out, back = out + here, back + went
    wanted = sum(it.back for it in heap.arenas) + heap.reclaimed
    claim(back == wanted or heap.is_partial and back > wanted, f"{back} came back, not {wanted}")
    owned = sum(judge_place(heap, at, *row) for at, row in enumerate(places))
    claim(sums == [[str(it)] for it in (owned, out - owned, out)], f"{owned}, {out}: {sums}")
    judge_flight(heap, out - owned, ways, all(row[1] == "ended" for row in places))


def judge_place(heap: Follower, at: int, name: str, state: str, *held: str) -> int:
    process, (blocks, count) = heap.processes.get(name.encode()), map(int, held)
    states = {"running": True, "ending": blocks > 0, "ended": blocks == 0}
    is_so = count % 16 == 0 and count >= 16 * blocks and (count == 0) == (blocks == 0)
    claim(process and is_so and states[state], f"{name} is {state} with {held}")
    if process and heap.is_certain(process) and process.number % 32 == at:
        is_so = (state, blocks, count) == ("running", len(process.held), size_of(process.held))
        claim(is_so, f"{name} is {state} with {held}")
    return count


def judge_flight(heap: Follower, count: int, rows: list[list[str]], is_over: bool) -> None:
    """What is in flight was given and not taken. Once all has ended, each end to which it goes is
    so in flight too: only a circle holds it."""
    ways = heap.ways()
    while is_over:
        there = {(it.channel, it.side) for blocks in ways.values() for it in blocks if it.channel}
        kept = {way: blocks for way, blocks in ways.items() if way in there}
        is_over, ways = len(kept) < len(ways), kept
    numbers = [tuple(map(int, row)) for row in rows]
    most = sum(map(size_of, ways.values()))
    is_so = numbers == sorted(numbers) and len(rows) <= len(ways) and count <= most
    is_so = is_so and ("--flight" not in heap.options or sum(it[2] for it in numbers) == count)
    is_so = is_so and bool(heap.mortal or heap.reclaimed or count == most)
    claim(is_so, f"{count} of {most} in flight: {rows}")


def judge(text: bytes, options: Options, is_serial: bool, answer: Answer) -> None:
    """Where a growth was refused, that may be the answer."""
    commands, fault = read(text)
    if answer.is_refused and answer.status == 3:
        claim_same(answer, (3, b"", b"xheap: out of memory\n"))
    elif fault:
        claim_same(answer, (1, b"", "xheap: line {}: {}\n".format(*fault).encode()))
    elif is_serial or [it[2] for it in commands].count(b"process") == 1 and not answer.is_refused:
        heap = Heap(options)
        lines = [f"{it[0]} {heap.step(*it[1:])}" for it in commands]
        claim_same(answer, (0, "\n".join([*lines, *heap.ledger(), ""]).encode(), b""))
    else:
        claim(answer.status == 0 and not answer.err and answer.out.endswith(b"\n"), str(answer))
        lines = answer.out.decode("ascii", "replace")[:-1].split("\n")
        follow(commands, options, lines, answer.is_refused)


def is_answer(heap: Heap, command: tuple[Any, ...], reply: str) -> bool:
    """Does the command. A give that found its peer closed in its midst may have been sent: then the
    peer's end reclaimed it."""
    said = heap.step(*command)
    return said == reply or reply == "no 15 PeerClosed 0" and said[:2] == "ok"


def read_on(heap: Heap, waiting: list[list[Replied]], at: list[int]) -> None:
    """Goes on in the processes' commands behind all reads that answer so now; these change nothing,
    whenever they come."""
    for number, own in enumerate(waiting):
        reads = itertools.takewhile(lambda it: it[0][1] == b"read" and is_answer(heap, *it),
                                    own[at[number] :])
        at[number] += len([*reads])


def judge_order(text: bytes, options: Options, is_serial: bool, answer: Answer) -> bool:
    """Whether the search was cut off. The numbers of holes have to be the same of two processes
    where nothing ends."""
    judge(text, options, is_serial, answer)
    is_exact, lines = options["--depth"] == 1 and b"process c" not in text, answer.out.decode()
    is_found = has_order(read(text)[0], options, is_exact, lines.splitlines())
    claim(is_found is not False, "no order has these replies and this ledger")
    return is_found is None


def has_order(commands: list[Command], options: Options, is_exact: bool,
              lines: list[str]) -> bool | None:
    """Whether there is one, each process's commands in their own order; None where the search is
    cut off."""
    heap, by_process = Heap(options), dict[Any, list[Replied]]()
    for (_, by, *command), line in zip(commands, lines):
        own, it = by_process.setdefault(by, []), ((by, *command), line.partition(" ")[2])
        own += [] if command[0] == b"read" and own[-1:] == [it] else [it]
    if not all(is_answer(heap, *head) for head in by_process.pop(None)):
        return False
    waiting, ledger = [*by_process.values()], without_holes(lines[len(commands) :], is_exact)
    begun, steps = [(pickle.dumps(heap), (0,) * len(waiting))], 0
    seen = set(begun)
    while begun and steps <= STEPS:
        state, places = begun.pop()
        heap, at = pickle.loads(state), [*places]
        read_on(heap, waiting, at)
        if at == [*map(len, waiting)] and without_holes(heap.ledger(), is_exact) == ledger:
            return True
        for number, own in enumerate(waiting):
            if at[number] < len(own):
                heap, steps = pickle.loads(state), steps + 1
                if is_answer(heap, *own[at[number]]):
                    further = (*at[:number], at[number] + 1, *at[number + 1 :])
                    found = pickle.dumps(heap), further
                    begun += {found} - seen
                    seen.add(found)
    return None if steps > STEPS else False


def without_holes(ledger: Iterable[str], is_exact: bool) -> list[list[str]]:
    rows = [line.split(" ") for line in ledger]
    return [row if is_exact or row[0] != "arena" else row[:4] + row[5:] for row in rows]
