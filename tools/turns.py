#!/usr/bin/env python3
"""The benchmark over two trees, by turns: what a step takes here in parts of what it takes there.

    tools/turns.py TREE [ROW ..]           beside TREE, a clone of another commit in which the
                                           crates below xh_bench are checked: the benchmark of
                                           this one goes there, with the calls that were there
    --turns N                              so many turns, 9 or more (21)
    --built HERE THERE [ROW ..]            by these two programs, and nothing is built

Both are proved and built by rt run. A turn is a burst of some 30 ms of each, the order changes from
turn to turn, each thread is kept on a processor of its own, and where it is allowed a burst isn't
interrupted. It prints for each row both medians and that of the ratios, with its quartiles."""
from __future__ import annotations

import argparse
import os
import pathlib
import shutil
import subprocess
import sys
from statistics import median, quantiles
from typing import Sequence

sys.dont_write_bytecode = True
import judging
from judging import ROOM, TOP, claim

BENCH = "crates/xh_bench"
BURST = 30e9


def built(tree: pathlib.Path) -> str:
    """The benchmark of this tree over the library of another, proved there."""
    crate = tree / BENCH
    if tree.resolve() != TOP:
        shutil.rmtree(crate, ignore_errors=True)
        shutil.copytree(TOP / BENCH, crate, ignore=shutil.ignore_patterns("out"))
        ours, others = (judging.lines_of(it / "crates.txt") for it in (TOP, tree))
        lines = [it for it in others if not it.startswith("xh_bench:")]
        lines += [it for it in ours if it.startswith("xh_bench:")]
        (tree / "crates.txt").write_text("\n".join(lines) + "\n")
        if "fn give_block" in (tree / "crates/xh_heap/src/process.rt").read_text():
            shutil.copy(TOP / "tools/library_before.txt", crate / "src/library.rt")
    subprocess.run(["rt", "run", "--", "read_16", "1"], cwd=crate, check=True)
    return str(crate / "out/xh_bench")


def burst(words: Sequence[str], threads: int) -> int:
    """The picoseconds of a step, on as many processors as it has threads."""
    pins = ",".join(map(str, sorted(os.sched_getaffinity(0))[-threads:]))
    kept = ["taskset", "-c", pins]
    if os.geteuid() == 0 and shutil.which("chrt"):
        kept += ["chrt", "-f", "1"]
    env = {**os.environ, "LD_PRELOAD": f"{ROOM}/pin.so", "PIN": pins}
    ran = subprocess.run([*kept, *words], env=env, capture_output=True, text=True, timeout=120)
    claim(ran.returncode == 0, f"{words}: {ran.stderr}")
    return int(ran.stderr.split()[-1])


def by_turns(all_words: Sequence[Sequence[str]], threads: int, turns: int) -> list[list[int]]:
    """The picoseconds of each in each turn; the words lack how many steps, for which {} stands."""
    def steps(words: Sequence[str], rounds: float) -> int:
        most = 40_000 if "kill" in words[1] else 10**9
        return burst([it.format(max(1, min(most, int(rounds)))) for it in words], threads)

    rounds = [BURST / steps(it, min(20_000, BURST / 10 / steps(it, 50))) for it in all_words]
    times: list[list[int]] = [[] for _ in all_words]
    for turn in range(turns):
        for at in sorted(range(len(all_words)), reverse=turn % 2 == 1):
            times[at].append(steps(all_words[at], rounds[at]))
    return times


def told(here: list[int], there: list[int]) -> str:
    """The median of the ratios, and its quartiles."""
    ratios = [one / other for one, other in zip(here, there)]
    low, _, high = quantiles(ratios, n=4)
    return f"{median(ratios):.3f} | {low:.3f} to {high:.3f} |"


def rows(program: str, names: Sequence[str] = ()) -> dict[str, list[str]]:
    """The rows, and for each how many threads it has, its limit, and what stands beside it."""
    ran = subprocess.run([program, "all", "1"], capture_output=True, text=True, check=True)
    found = {name: more for name, *more in (it.split("\t") for it in ran.stdout.splitlines())}
    claim({*names} <= {*found}, f"no rows: {names}")
    return {name: found[name] for name in names or found}


def compared(here: str, there: str, names: Sequence[str], turns: int) -> None:
    """Prints the rows of both programs, each with what stands beside it."""
    print("| Row | there, ns | here, ns | here to there | quartiles |\n" + "|---" * 5 + "|")
    for name, (threads, *_) in rows(here, names).items():
        for more in (), ("beside",):
            ours, theirs = by_turns([(it, name, "{}", *more) for it in (here, there)],
                                    int(threads), turns)
            both = f"{median(theirs) / 1e3:,.1f} | {median(ours) / 1e3:,.1f}"
            print(f"| `{' '.join([name, *more])}` | {both} | {told(ours, theirs)}", flush=True)


def main(words: Sequence[str], is_built: bool, turns: int) -> int:
    judging.build_loaded("pin")
    if is_built:
        here, there, *names = words
    else:
        tree, *names = words
        here, there = built(TOP), built(pathlib.Path(tree))
    compared(here, there, names, turns)
    return 0


if __name__ == "__main__":
    form = argparse.RawDescriptionHelpFormatter
    parser = argparse.ArgumentParser(description=__doc__, formatter_class=form)
    parser.add_argument("word", nargs="*")
    parser.add_argument("--built", action="store_true")
    parser.add_argument("--turns", type=int, default=21)
    given = parser.parse_intermixed_args()
    if len(given.word) < 1 + given.built or given.turns < 9:
        sys.exit(__doc__)
    sys.exit(judging.kept(lambda: main(given.word, given.built, given.turns)))
