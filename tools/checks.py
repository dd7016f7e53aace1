"""What ./gate tries of proved programs, and ./test of checked ones: each script, the examples of
docs/SCRIPT.md, the rows of tools/endings.txt, and the example programs; and ./xheap, ./prove and
./test in copies of the repository."""
from __future__ import annotations

import collections
import itertools
import os
import pathlib
import re
import shutil
import tempfile
from typing import Any, Callable, Container, Iterator

import judging
from judging import ROOM, TOP, claim, claim_same, lines_of, run, write

# Where they stand, {} being the name.
PROVED, CHECKED = "crates/{}/out", ".checked"
EXAMPLES = "xh_server", "xh_pipeline", "xh_hello"
# What it is one of in tools/counts.txt, if of anything; a judge and its arguments.
Check = tuple[Any, ...]
# What an example of docs/SCRIPT.md ends with (judging.ends): its status, its output and its errors;
# its options, and its lines.
Example = tuple[int, str, str, list[str], list[str]]
DOCUMENT = (TOP / "docs/SCRIPT.md").read_text()
BLOCK = r"((?:^    .*\n)+)"

# Copies of the repository: in IN_PROVED ./prove has built the program, in IN_KEPT ./xheap its
# checked build, in UNPROVED nothing can be kept. There rt is a small one: a proof it takes for
# done, and a build is the program that stands here.
KIT, IN_PROVED, IN_KEPT, UNPROVED = (ROOM / it for it in ("kit", "proved", "kept", "unproved"))
BUILDING = b"xheap: building it unproved, 1 to 4 minutes\n"
IS_CHECKED = b"xheap: unproved, but checked as it runs; ./prove proves it once for all\n"
READING = b"xheap: reads a script from the terminal, to its end (Ctrl-D)\n"
RT = r"""#!/usr/bin/env bash
program="TOP/crates/${PWD##*/}/out/${PWD##*/}" it="$TMPDIR/rt-try/it"
case "$1" in
    run) cp "$program" out ;;
    try) mkdir -p "$it" && cp "$program" "$it/program" && sleep 0.2 && rm -r "$it" ;;
esac
"""
LEAVES_NONE = r"""#!/usr/bin/env bash
for it in "${@: -1}"/*; do echo "case=${it##*/} run=ended status=STATUS runners=1" >&2; done
"""
# A script that comes slowly, and one that is typed.
SLOW = '(echo process a; sleep 4; echo a alloc x 40 0) | "$@"'
TYPED = r"""python3 -c 'import os, pty, subprocess, sys
ours, its = pty.openpty()
os.write(ours, b"process a\na alloc x 40 0\n\4")
sys.exit(subprocess.run(sys.argv[1:], stdin=its).returncode)' "$@" """


def program(name: str, where: str = PROVED) -> pathlib.Path:
    return pathlib.Path(where.format(name), name + "_tests" * name.endswith("_tests"))


def least() -> dict[str, int]:
    """How many there are at least of each, by tools/counts.txt."""
    rows = (line.partition(" ") for line in lines_of("tools/counts.txt"))
    return {what: int(number) for number, _, what in rows}


def claim_enough(counts: collections.Counter[str], other: Container[str]) -> None:
    """Of nothing but these others there is less than tools/counts.txt says."""
    less = [f"{counts[what]}, and not {number}, {what}" for what, number in least().items()
            if counts[what] < number and what not in other]
    claim(not less, ", ".join(less))


def told(made: Iterator[Check]) -> Iterator[Check]:
    """The checks that are made; where making one fails, that is one that fails."""
    try:
        yield from made
    except Exception as wrong:
        yield "", claim, False, f"{type(wrong).__name__}: {wrong}"


def is_failed(tool: str, _: str, judge: Callable[..., None], *words: Any) -> bool:
    if wrong := judging.failure(judge, *words):
        words = tuple(it for it in words if isinstance(it, (int, str, bytes, pathlib.Path)))
        label = f"{judge.__name__} {' '.join(map(str, words))}"[:200]
        print(f"{tool}: {label} FAILED: {wrong}\n", end="", flush=True)
    return bool(wrong)


def of_programs(where: str) -> Iterator[Check]:
    scripts = sorted(it for folder in ("examples", "scripts")
                     for it in pathlib.Path(folder).glob("*.script"))
    made = examples(where), endings(where), *(of_script(where, it) for it in scripts)
    for name in EXAMPLES:
        file = pathlib.Path("crates", name, "stdout")
        yield "example programs", prints, program(name, where), file
    yield from itertools.chain(*map(told, made))


def prints(path: pathlib.Path, file: pathlib.Path) -> None:
    """It prints what stands in the file."""
    claim_same(run([path]), (0, file.read_bytes(), b""))


def examples(where: str) -> Iterator[Check]:
    for number, (*wanted, words, lines) in enumerate(examples_of_document()):
        script = ROOM / f"{number}.script"
        script.write_text("\n".join(lines), encoding="utf-8")
        run_of = judging.ends, program("xheap", where), script, "/dev/stdout", *wanted, *words
        yield "examples of docs/SCRIPT.md", *run_of


def endings(where: str) -> Iterator[Check]:
    """Of ./xheap_picture by the first word that is told."""
    too_long, what = ROOM / "too_long", "runs of tools/endings.txt"
    too_long.write_bytes(b"#" * 1_048_577)
    for row in lines_of("tools/endings.txt"):
        row = row.replace("TOO_LONG", str(too_long)).encode().decode("unicode_escape")
        source, to, status, *told, row = row.split("|", 5)
        wanted = [it.replace("NAME", "xheap") for it in told]
        first = [it.replace("NAME", "xheap_picture").split()[0] + " *" if it else "" for it in told]
        for words in row.split("|"):
            given = words.encode("latin-1").split()
            how = f'"$@" <"{source}" >"{to}"'
            yield what, judging.ends, program("xheap", where), source, to, status, *wanted, *given
            yield what, judging.ends, "./xheap_picture", source, to, status, *first, *given
            yield "runs each way", answers_each_way, how, *given


def of_script(where: str, script: pathlib.Path) -> Iterator[Check]:
    """In each of its ways, a line of its .options being the words of one, and its picture in the
    first. A way that begins with another word than an option is one of xh_play."""
    options, folder, own = script.with_suffix(".options"), script.parent, "ways of their own"
    if not options.exists():
        options, own = folder / "default.options", "ways by default"
    ways = [line.split() for line in lines_of(options)]
    claim(ways and all(ways), f"{options} has no way, or an empty line")
    for words in ways:
        by = program("xheap" if words[0].startswith("--") else "xh_play", where)
        yield f"{folder}/: {own}", judging.ends_as_written, by, script, *words
        if folder.name == "examples":
            stands = judging.program_stands_each_growth, by, script, *words
            yield f"{folder}/: ways with refused growths", *stands
    first = itertools.dropwhile(lambda word: not word.startswith("--"), ways[0])
    drawn = "drawn and compared" if judging.picture_of(script) else "drawn"
    yield f"{folder}/: {drawn}", judging.is_drawn, "./xheap_picture", script, *first


def ran(program: pathlib.Path, *words: Any, how: str = '"$@"', kit: pathlib.Path = KIT) -> Any:
    """The answer of a text of bash, in which "$@" is the program with its words."""
    path = f"PATH={kit}/bin:{os.environ['PATH']}"
    return run(["env", path, "bash", "-c", how, "-", program, *words])


def copied(source: pathlib.Path, copy: pathlib.Path) -> pathlib.Path:
    shutil.copytree(source, copy, ignore=shutil.ignore_patterns("out", ".checked", ".git"))
    return copy


def make_copies(top: pathlib.Path = TOP) -> None:
    """The program is the one that stands below top."""
    write(KIT / "KIT-ID", "a kit\n")
    write(KIT / "bin/rt", RT.replace("TOP", str(top)))
    write(copied(TOP, UNPROVED) / ".checked", "no folder\n")
    copied(TOP, IN_PROVED)
    answer = ran(IN_PROVED / "prove")
    claim(answer.status == 0 and b": proved and built, " in answer.err, str(answer))
    answer = ran(copied(TOP, IN_KEPT) / "xheap", "-V", "-V")
    claim(answer.err == BUILDING + IS_CHECKED, str(answer))


def answers_each_way(how: str, *words: Any) -> None:
    """As the program does, but that unproved it says so, that it builds, and that it reads a
    terminal; or nothing, for words of which it has the answer."""
    status, out, err = ran(TOP / "crates/xheap/out/xheap", *words, how=how)[:3]
    claim_same(ran(IN_PROVED / "xheap", *words, how=how), (status, out, err))
    is_told = words in ((b"--help",), (b"-h",), (b"--version",), (b"-V",))
    said = b"" if is_told or "2>&-" in how else IS_CHECKED + (how == TYPED) * READING
    claim_same(ran(IN_KEPT / "xheap", *words, how=how), (status, out, said + err))
    said = bool(said) * BUILDING + said
    claim_same(ran(UNPROVED / "xheap", *words, how=how), (status, out, said + err))


def knows_what_it_runs() -> None:
    """What was proved stays so in a copy, also where a source is a link, which is seen by 0.1
    seconds of a processor; but not with a part changed, be it older, or by another kit: then it is
    built anew, and kept. Without its list nothing is proved, and where rt says nothing there is no
    answer."""
    room = pathlib.Path(tempfile.mkdtemp(dir=ROOM))
    copy, kit, linked = room / "copy", room / "kit", room / "linked.rt"
    run(["cp", "-r", IN_PROVED, copy])
    run(["cp", "-r", KIT, kit])
    source = copy / "crates/xh_core/src/lib.rt"
    source.rename(linked)
    source.symlink_to(linked)
    how = "TIMEFORMAT='%U %S'; time \"$@\""
    times = [sum(map(float, ran(copy / "xheap", "-V", how=how).err.split())) for _ in range(5)]
    claim(min(times) <= 0.1, f"seconds: {times}")
    parts = [copy / "crates.txt", copy / "crates/xheap/out/xheap", kit / "KIT-ID", linked]
    parts += [next(copy.glob(f"crates/xh_core/{it}/**/*.*t")) for it in ("src", "specs", "proofs")]
    for part in parts:
        text = part.read_bytes()
        for change, wanted in ((b"#", [BUILDING + IS_CHECKED, IS_CHECKED]), (b"", [b""])):
            part.write_bytes(text + change)
            os.utime(part, (0, 0))
            said = [ran(copy / "xheap", "-V", "-V", kit=kit).err for _ in wanted]
            claim(said == wanted, f"{part} {change!r}: {said}")
    (copy / "crates.txt").unlink()
    answer = ran(copy / "prove")
    claim(answer[:2] == (1, b"") and b"crates.txt" in answer.err, str(answer))
    answer = ran(copy / "xheap", how='rt() { :; }; export -f rt; "$@"')
    claim(answer[:2] == (70, b"") and b"\nxheap: no answer: " in answer.err, str(answer))


def runs_without_room() -> None:
    """Where no temporary file can be made the program runs, and ./prove says so."""
    how = 'TMPDIR=/nothing "$@"'
    claim_same(ran(IN_PROVED / "xheap", "-V", how=how), (0, b"xheap 1.0\n", b""))
    answer = ran(IN_PROVED / "prove", how=how)
    claim(answer.status == 1 and b"no folder can be made in /nothing" in answer.err, str(answer))


def proves_once() -> None:
    """Of two ./prove at once one waits for the other, and finds all proved."""
    copy = copied(IN_PROVED, ROOM / "twice")
    answer = ran(copy / "prove", how='"$@" & "$@" && wait "$!"')
    claim(answer.status == 0 and b"waits for another ./prove" in answer.err, str(answer))


def test_tells() -> None:
    """./test passes a script, and not with another output written of it, and knows its words. By a
    kit that leaves no program rt try judges the script, by its status here."""
    copy, kit = copied(IN_PROVED, ROOM / "tested"), ROOM / "kit_that_leaves_none"

    def answers(status: int, text: bytes, word: str = "scarce", by: pathlib.Path = KIT) -> None:
        answer = ran(copy / "test", word, kit=by)
        is_so = answer.status == status and re.search(text, answer.out + answer.err)
        claim(is_so, str(answer))

    answers(0, rb"\ntest: 3 passed, 0 failed\n\Z")
    answers(2, rb"nothing is called scarcely\n\Z", "scarcely")
    write(kit / "KIT-ID", "another kit\n")
    for status in (0, 1):
        write(kit / "bin/rt", LEAVES_NONE.replace("STATUS", str(status)))
        answers(status, rb"\ntest: %d passed, %d failed\n\Z" % (2 - status, status), by=kit)
    with (copy / "examples/scarce.out").open("a") as out:
        out.write("another\n")
    answers(1, rb"(?s)\n-another\n.*\ntest: 1 passed, 2 failed\n\Z")


def does_not_compile(crate: str, error: str, old: str, new: str) -> None:
    """With the one text in place of the other the crate's program is refused, for this error of
    the compiler, before any proof."""
    main = copied(TOP, ROOM / "compiled") / f"crates/{crate}/src/main.rt"
    text = main.read_text(encoding="utf-8")
    claim(text.count(old) == 1, f"{main} has no such text once: {old}")
    main.write_text(text.replace(old, new), encoding="utf-8")
    answer = run(["env", "-C", main.parents[1], "rt", "try"])
    said = (answer.out + answer.err).decode(errors="replace")
    claim(answer.status == 1 and error in said, said)


def of_wrappers() -> Iterator[Check]:
    for judge in (knows_what_it_runs, runs_without_room, proves_once, test_tells):
        yield "", judge
    for tool in ("prove", "xheap", "test"):
        yield "", judging.ends_at_once, UNPROVED / tool
    for how in (SLOW, TYPED, '"$@" <&-', '"$@" </dev/zero', '"$@" >/dev/full 2>&-'):
        yield "", answers_each_way, how, "--depth", "2"
    yield "", answers_each_way, '"$@"', "two  words\nchecked: it", ""


def unindented(block: str) -> list[str]:
    return [line[4:] for line in block.splitlines()]


def parts_of(form: str, text: str) -> tuple[Any, ...]:
    """The parts of a text of this form."""
    found = re.fullmatch(form, text)
    claim(found, f"an example of no known form: {text}")
    return found.groups() if found else ()


def lines_of_part(text: str) -> list[str]:
    """The lines that one part of a cell's example stands for."""
    if many := re.fullmatch(r"([\d,]+) lines `([^`]*)`", text):
        return [many[2]] * int(many[1].replace(",", ""))
    if each := re.fullmatch(r"`([^`]*?)(\d+)( [^`]*|)` to `\1(\d+)\3`", text):
        return [f"{each[1]}{at}{each[3]}" for at in range(int(each[2]), int(each[4]) + 1)]
    pieces = [parts_of(r"`([^`]*)`(?: × ([\d,]+))?", part) for part in text.split(" + ")]
    return ["".join(it * int((times or "1").replace(",", "")) for it, times in pieces)]


def script_of(text: str) -> tuple[list[str], list[str]]:
    """The options and the lines of a cell's example."""
    text, _, options = text.partition(" with ")
    given = ["--serial", *options.strip("`").split()]
    return given, [line for part in text.split(", then ") for line in lines_of_part(part)]


def rows_of(head: str) -> list[list[str]]:
    """The rows of the table that begins with this cell."""
    table = re.findall(rf"^\| {head} \|.*\n\|[-|]*\n((?:\|.*\n)+)", DOCUMENT, re.M)[0]
    return [[cell.strip() for cell in line[1:-1].split("|")] for line in table.splitlines()]


def one_by_one(blocks: list[str]) -> Iterator[Example]:
    """The script that goes from section to section: an example for each block, run with all before
    it."""
    done = list[tuple[Any, ...]]()
    for block in blocks:
        done += [parts_of(r"(.+?) +(\d+ (?:ok|no)\b.*)", line) for line in unindented(block)]
        lines, replies = zip(*done)
        yield 0, "\n".join([*replies, "*"]), "", ["--serial"], [*lines]


def of_cells(head: list[str]) -> Iterator[Example]:
    for _, _, cell in rows_of("Limit"):
        text, kind, line = parts_of(r"(.*): (\w+)(?: at line (0))?", cell)
        options, lines = script_of(text)
        yield 1, "", f"xheap: line {line or len(lines)}: {kind}", options, lines
    for number, name, _, cell in rows_of("No."):
        if name != "OutOfMemory":
            text, reply = parts_of(r"(.*?)(?:: `(no [^`]*)`)?", cell)
            reply = reply or f"no {number} {name}"
            claim(reply.split()[1:3] == [number, name.split()[0]], f"not of its row: {reply}")
            options, lines = script_of(text)
            yield 0, f"*\n{len(head + lines)} {reply}\n*", "", options, head + lines
    for kind, _, cell in rows_of("Kind"):
        for options, lines in map(script_of, cell.split("; ")):
            yield 1, "", f"xheap: line {len(lines)}: {kind}", options, lines


def examples_of_document() -> Iterator[Example]:
    """An example is an indented block, or a cell of the last column of the tables of limits,
    refusals and faults; one that is of no known form is refused."""
    sections = dict(it.split("\n", 1) for it in re.split(r"^## ", DOCUMENT, flags=re.M))
    blocks = {title: re.findall(BLOCK, text, re.M) for title, text in sections.items()}
    script, command, printed = map(unindented, blocks.pop("A script and its output"))
    options, file = parts_of(r"\./xheap (.*) < (\S+)", *command)
    claim((TOP / file).read_text().splitlines() == script, f"the script is not {file}")
    yield 0, "\n".join(printed), "", options.split(), script
    titles = "Heads", "Blocks", "Messages", "Ending"
    yield from one_by_one([it for title in titles for it in blocks.pop(title)])
    ledger = rf"with `(--[^`]*)`, the script\n\n{BLOCK}\nprints\n\n{BLOCK}"
    ledgers = re.findall(ledger, sections["The ledger"], re.M)
    for options, block, ledger in ledgers:
        yield 0, "\n".join(["*", *unindented(ledger)]), "", options.split(), unindented(block)
    head, = map(unindented, blocks.pop("Refusals"))
    yield from of_cells(head)
    claim(sum(map(len, blocks.values())) == 2 * len(ledgers), "a block that is no example")
