"""How a program is run and how its answer is judged, by the gate and by ./soak. A judge returns
where all is right, and raises Wrong where it is not; tools/test_gate tries them on wrong programs.
"""
from __future__ import annotations

import contextlib
import ctypes
import difflib
import fnmatch
import os
import pathlib
import re
import shutil
import signal
import subprocess
import sys
import tempfile
import time
from subprocess import PIPE
from typing import Any, Callable, Iterator, NamedTuple, Sequence, Union
from xml.etree import ElementTree

TOP = pathlib.Path(__file__).resolve().parent.parent
PROCESSORS = len(os.sched_getaffinity(0))
# Where temporary files are of a run of the gate, of soak, and of what they run; `kept` makes it.
ROOM = pathlib.Path(tempfile.gettempdir(), f"judging.{os.urandom(8).hex()}")
# For so many seconds a program may run, and a tool that proves, builds, or runs many programs.
LIMIT, LONG = 600, 43_200
ENDS = signal.SIGTERM, signal.SIGINT, signal.SIGHUP
# It sleeps, as does what it starts, one in a session of its own.
SLEEPER = """#!/usr/bin/env bash
setsid sleep 1000 &
sleep 1000 &
echo $$ $(jobs -p) >>"$STARTED"
wait
"""
# The words behind these verbs that name the blocks that they make.
MADE = {"wire": (1, 3), "open": (0, 1), "alloc": (0,), "split": (2,)}
Word = Union[str, bytes, pathlib.Path]
# A status, an output and a text of errors.
Ended = tuple[int, bytes, bytes]


class Answer(NamedTuple):
    """What a run ended with, and whether a growth of memory was refused."""

    status: int
    out: bytes
    err: bytes
    is_refused: bool = False


class Wrong(Exception):
    pass


def claim(is_so: object, what: str) -> None:
    if not is_so:
        raise Wrong(what)


def around(page: pathlib.Path, tool: str) -> tuple[str, str]:
    """What stands on the page before and behind the part that the tool makes: all between the two
    lines that name it."""
    marks = f"<!-- made by {tool}: do not edit -->\n", f"<!-- end of what {tool} made -->"
    before, begin, rest = page.read_text().partition(marks[0])
    _, end, after = rest.partition(marks[1])
    claim(begin and end, f"{page}: the lines {marks[0]}{marks[1]} do not stand there")
    return before + begin, end + after


def write(file: pathlib.Path, text: str) -> None:
    file.parent.mkdir(parents=True, exist_ok=True)
    file.write_text(text)
    file.chmod(0o700)


def lines_of(file: str | pathlib.Path) -> list[str]:
    """The lines that are no comments."""
    return [it for it in pathlib.Path(file).read_text().splitlines() if not it.startswith("#")]


def kept(main: Callable[[], int]) -> int:
    """The status of main, which runs in a process and a room of its own. After it, and at once
    where a signal ends this process, nothing goes on of what it began, and the room is gone."""
    ends = {it for it in ENDS if signal.getsignal(it) != signal.SIG_IGN}
    before = signal.pthread_sigmask(signal.SIG_BLOCK, {*ends, signal.SIGCHLD})
    ROOM.mkdir()
    # rt runs programs and tests as nobody, who has to get through.
    ROOM.chmod(0o711)
    # Whose parent has ended is then a child of this process (PR_SET_CHILD_SUBREAPER).
    ctypes.CDLL(None).prctl(36, 1, 0, 0, 0)
    child, ended, status = os.fork(), False, 1
    if not child:
        try:
            os.setsid()
            # A session's processes have a priority together, beside their own.
            with contextlib.suppress(OSError):
                pathlib.Path("/proc/self/autogroup").write_text(str(os.nice(0)))
            signal.pthread_sigmask(signal.SIG_SETMASK, before)
            # Where ./soak keeps what failed, also within the gate.
            os.environ.setdefault("JUDGING_KEEPS", tempfile.gettempdir())
            os.environ["TMPDIR"] = tempfile.tempdir = str(ROOM)
            status = main()
            sys.stdout.flush()
        except Exception as wrong:
            name = pathlib.Path(sys.argv[0]).name
            print(f"{name}: FAILED: {type(wrong).__name__}: {wrong}", flush=True)
        finally:
            os._exit(status)
    while not ended and (number := signal.sigwait({*ends, signal.SIGCHLD})) == signal.SIGCHLD:
        while not ended and (found := os.waitpid(-1, os.WNOHANG))[0]:
            ended, status = found[0] == child, found[1]
    # All that this process began, and what they began, until there is none.
    with contextlib.suppress(ChildProcessError):
        while True:
            for it in pathlib.Path("/proc/thread-self/children").read_text().split():
                os.kill(int(it), signal.SIGKILL)
            os.wait()
    shutil.rmtree(ROOM, ignore_errors=True)
    if not ended:
        signal.signal(number, signal.SIG_DFL)
        signal.pthread_sigmask(signal.SIG_SETMASK, before)
        os.kill(os.getpid(), number)
    return os.waitstatus_to_exitcode(status) % 256


def wait_for(is_so: Callable[[], object], seconds: int) -> bool:
    until = time.monotonic() + seconds
    while not is_so() and time.monotonic() < until:
        time.sleep(0.05)
    return bool(is_so())


def ends_at_once(*command: Word) -> None:
    """Ended by each signal it ends what it began, where rt sleeps, and leaves no file."""
    kit, null = pathlib.Path(tempfile.mkdtemp(dir=ROOM)), subprocess.DEVNULL
    write(kit / "KIT-ID", "a kit\n")
    write(kit / "bin/rt", SLEEPER)
    path = f"PATH={kit}/bin:{os.environ['PATH']}"
    for number in ENDS:
        told, room = kit / f"told_{number}", pathlib.Path(tempfile.mkdtemp(prefix="a ", dir=kit))
        its = path, f"TMPDIR={room}", f"STARTED={told}"
        words = "env", "--default-signal", *its, *command
        with subprocess.Popen(words, stdin=null, stdout=null, stderr=null) as ran:
            begun = wait_for(lambda: told.exists() and told.read_text(), 60)
            ran.send_signal(number)
            try:
                status = ran.wait(10)
            finally:
                ran.kill()
        claim(begun and (status == -number or status > 128), f"{begun}, it ended with {status}")
        started = [pathlib.Path("/proc", it) for it in told.read_text().split()]
        is_over = wait_for(lambda: not any(it.exists() for it in started), 5)
        claim(is_over and not os.listdir(room), f"it goes on, or files: {os.listdir(room)}")


def failure(judge: Callable[..., object], *words: Any) -> str:
    """What is wrong, if anything is."""
    try:
        judge(*words)
    except Exception as wrong:
        return f"{type(wrong).__name__}: {wrong}"
    return ""


def build_loaded(name: str, source: str | pathlib.Path = "") -> None:
    """What is loaded before a program: tools/NAME.c, or another source."""
    source = source or TOP / f"tools/{name}.c"
    words = "cc", "-O2", "-shared", "-fPIC", "-o", ROOM / f"{name}.so", "-xc", source, "-ldl"
    claim(run(words).status == 0, f"{source} cannot be built")


def run(words: Sequence[Word], text: bytes = b"", limit: int = 0, **refused: int | None) -> Answer:
    """Runs a program, with what tools/refuse_growth.c is told to refuse; at its limit all of its
    session ends, and it is wrong."""
    env = {f"REFUSE_{it.upper()}": str(value) for it, value in refused.items() if value is not None}
    refuser = f"{tempfile.gettempdir()}/refuse_growth.so" if env else os.devnull
    with tempfile.NamedTemporaryFile() as told, open(refuser) as file:
        if env:
            # A path without a space, at which the loader would split it.
            env["LD_PRELOAD"] = f"/proc/{os.getpid()}/fd/{file.fileno()}"
            env["REFUSE_TOLD"] = told.name
        with subprocess.Popen(words, stdin=PIPE, stdout=PIPE, stderr=PIPE,
                              env={**os.environ, **env}, start_new_session=True) as ran:
            try:
                out, err = ran.communicate(text, limit or LIMIT)
            except BaseException:
                os.killpg(ran.pid, signal.SIGKILL)
                raise
        said = told.read()
    claim(not env or b"+" in said, f"no refuse_growth.so was loaded: {err!r}")
    return Answer(ran.returncode, out, err, b"." in said)


def passes(*words: Word) -> None:
    ran = run(words, limit=LONG)
    claim(ran.status == 0, (ran.out + ran.err).decode(errors="replace"))


def has_types(*files: pathlib.Path) -> None:
    """These that are Python have no line of more than 100 columns; and the right types, where mypy
    is there."""
    texts = {it: it.read_text() for it in files if it.is_file()}
    ours = [it for it, text in texts.items() if re.match('"""|#!.* python3', text)]
    long = [line for it in ours for line in texts[it].splitlines() if len(line) > 100]
    claim(ours and not long, "\n".join(["too long, or no file:", *long]))
    if not shutil.which("mypy"):
        print("gate: there is no mypy, so types are not checked", flush=True)
        return
    passes("mypy", "--strict", "--scripts-are-modules", "--cache-dir", ROOM / "mypy", *ours)


def rt_ci(tell: Callable[[str], object] = lambda crate: None) -> None:
    """Each crate is proved, and each is told when it is."""
    words = ["timeout", "--signal=KILL", str(LONG), "rt", "ci"]
    said, null = "", subprocess.DEVNULL
    with subprocess.Popen(words, stdin=null, stdout=PIPE, text=True, errors="replace") as ran:
        for said in ran.stdout or ():
            print(said, end="", flush=True)
            for crate in re.findall(r"^rt: (\w+) proved$", said):
                tell(crate)
    claim(ran.returncode == 0, f"rt ci ended with status {ran.returncode}")
    claim(re.fullmatch(r"[1-9]\d* passed, 0 failed\n", said), f"its last line: {said!r}")


def refuses_edits(tool: Word, crate: str, count: int, *by: Word) -> None:
    """Each of so many wrong bodies of the crate is refused by the tool, which these words run."""
    ran = run([*by, tool, "--jobs", "1", crate], limit=LONG)
    said = (ran.err + ran.out).decode(errors="replace")
    is_so = re.search(rf"^edits: {count} refused, 0 not, \d+ kept\n\Z", said, re.M)
    claim(ran.status == 0 and is_so, f"it ended with {ran.status}: {said}")


def claim_same(answer: Answer | Ended, wanted: Ended) -> None:
    """The answer is this status, output and text of errors."""
    one, other = (f"{it[0]}\n{(it[1] + it[2]).decode(errors='replace')}".splitlines()
                  for it in (wanted, answer))
    lines = difflib.unified_diff(one, other, "wanted", "answered", n=0, lineterm="")
    claim(answer[:3] == wanted, "\n".join([*lines][:20]))


def written(script: pathlib.Path) -> Ended:
    """What is written beside a script: its .out, or nothing where there is none; and its .status
    with the text of errors, or that of no fault."""
    out, status = script.with_suffix(".out"), script.with_suffix(".status")
    claim(out.exists() or status.exists(), f"nothing is written of {script}")
    number, _, err = (status.read_bytes() if status.exists() else b"0").partition(b"\n")
    return int(number), out.read_bytes() if out.exists() else b"", err


def ends_as_written(program: Word, script: pathlib.Path, *words: str) -> None:
    claim_same(run([program, *words], script.read_bytes()), written(script))


def picture_of(script: pathlib.Path) -> pathlib.Path | None:
    """The picture beside it or in docs/pictures/, where there is one."""
    pictures = script.with_suffix(".svg"), TOP / "docs/pictures" / f"{script.stem}.svg"
    return next((it for it in pictures if it.exists()), None)


def signs_of(picture: bytes) -> set[tuple[int, str]]:
    """What a picture, which is XML, has, each with where its row begins: texts, whole also where
    they are cut; the names that rectangles tell, behind what they are; and arrows."""
    signs, kinds = set[tuple[int, str]](), {"held": "block", "end": "block"}
    for it in ElementTree.fromstring(picture).iter():
        kind, told, y = it.get("class", ""), it.findtext("{*}title"), int(it.get("y", 0))
        if it.tag.endswith("}text"):
            signs.add((y - 13, told or it.text or ""))
        elif it.tag.endswith("}rect"):
            signs.add((y, f"{kinds.get(kind, kind)} {told}"))
        elif kind == "arrow" and (at := re.match(r"M\d+,(\d+)H", it.get("d", ""))):
            signs.add((int(at[1]) - 15, "arrow"))
    return signs


def signs_in_row(verb: str, words: list[str], reply: list[str]) -> Iterator[str]:
    """What is wanted in the row of a command that was done: there each block begins that it makes
    or takes, and in flight each that it gives; and a message has its number, its tag, and where it
    is given an arrow."""
    made = [words[at] for at in MADE.get(verb, ())]
    if verb == "give":
        yield from (f"\u2192{reply[0]}, tag {words[1]}", "arrow")
        yield from (f"flight {name}" for name in words[2:])
    if verb in ("take", "await"):
        yield f"\u2190{reply[0]}, tag {reply[1]}"
        made = [name for name, _ in zip(words[1:], reply[2:])]
    yield from (f"block {name}" for name in made)


def shows(picture: bytes, script: str) -> None:
    """The picture is XML, and has each process, block and message of the script, by its words: each
    process by whom a line is or that it starts, as a text; each command beside a reply to its line;
    and in its row what `signs_in_row` says, where that reply is ok."""
    signs = signs_of(picture)
    replies = {at[1]: (row, at[2].split(" ")) for row, sign in signs
               if (at := re.fullmatch(r"(\d+) ((?:ok|no).*)", sign))}
    for number, line in enumerate(script.split("\n"), 1):
        if line and not line.startswith("#"):
            claim(str(number) in replies, f"no reply to line {number}")
            row, (is_done, *reply) = replies[str(number)]
            by, verb, *words = line.split(" ")
            if by in ("process", "wire", "contract"):
                by, verb, words = verb, by, [verb, *words]
            wanted = [line, *signs_in_row(verb, words, reply)] if is_done == "ok" else [line]
            lacks = [it for it in wanted if (row, it) not in signs]
            claim(not lacks, f"nothing in the row of line {number} is {lacks}")
            is_there = verb == "contract" or any(sign == by for _, sign in signs)
            claim(is_there, f"no process {by}")


def is_drawn(program: str | pathlib.Path, script: pathlib.Path, *words: str) -> None:
    """The script is drawn so that the picture shows it, and as its picture. One with a fault is
    not, and the fault is told as in its .status by this program's name."""
    answer, (status, _, err) = run([program, *words], script.read_bytes()), written(script)
    if status != 0:
        name = f"{pathlib.Path(program).name}:".encode()
        claim_same(answer, (status, b"", err.replace(b"xheap:", name)))
        return
    picture = picture_of(script)
    claim_same(answer, (0, picture.read_bytes() if picture else answer.out, b""))
    shows(answer.out, script.read_text())


def ends_without_a_word(program: Word) -> None:
    """It says that it reads a terminal, and each signal ends it there without a further word."""
    for number in ENDS:
        ours, its = os.openpty()
        words = "env", "--default-signal", program
        with subprocess.Popen(words, stdin=its, stdout=PIPE, stderr=subprocess.STDOUT) as ran:
            assert ran.stdout
            begun = ran.stdout.readline()
            ran.send_signal(number)
            rest = ran.stdout.read()
        os.close(ours)
        os.close(its)
        claim(begun and (ran.returncode, rest) == (-number, b""), f"{ran.returncode}: {rest!r}")


def ends(program: Word, source: Word, to: Word, status: str, printed: str, reported: str,
         *words: Word) -> None:
    """Run on these two files it ends so, and has printed and reported these lines, in which a *
    is any text."""
    bash = "bash", "-c", 'exec "${@:3}" <"$1" >"$2"', "-"
    answer = run([*bash, source, to, program, *words])
    for found, wanted in ((answer.out, printed), (answer.err, reported)):
        claim(fnmatch.fnmatchcase(found.decode(), wanted and wanted + "\n"), str(answer))
    claim(answer.status == int(status), str(answer))


def each_growth(words: Sequence[Word], text: bytes = b"", **refused: int | None
                ) -> Iterator[Answer]:
    """The answers with the first growth of memory refused, with the second, and so on until a run
    asks for no more, whose answer is the last."""
    answer, number = None, 0
    while not answer or answer.is_refused:
        number += 1
        answer = run(words, text, 0, growth=number, **refused)
        yield answer


def passes_each_growth(program: Word, test: str) -> None:
    """A test passes whichever growth is refused; one without memory whichever is the first from
    which on all are."""
    rest = 1 if "without_memory" in test else None
    answers = [*each_growth([program, test], rest=rest)]
    for number, answer in enumerate(answers, 1):
        claim(answer.status == 0, f"growth {number}: {answer}")
    claim(len(answers) > 1, "no growth was asked for")


def refused_line(words: Sequence[Word], text: bytes, answer: Answer) -> int:
    """The line of the one command that says that it was refused memory. All else is as if the
    script did not have it: the output is that of the script with a comment in its place."""
    lines = re.findall(rb"^(\d+) no 1 OutOfMemory$", answer.out, re.M)
    claim(len(lines) == 1 and "--serial" not in words, f"refused memory: {answer}")
    commands = text.split(b"\n")
    commands[int(lines[0]) - 1] = b"#"
    out = answer.out.replace(lines[0] + b" no 1 OutOfMemory\n", b"")
    claim_same(run(words, b"\n".join(commands)), (0, out, b""))
    claim_same(answer, (0, answer.out, b""))
    return int(lines[0])


def program_stands_each_growth(program: Word, script: pathlib.Path, *options: str) -> None:
    """With each growth of each thread refused in turn; there is none but the first, and one a
    process. A run to which one was refused ends with status 3, or gets by without it and is whole,
    as where a list asks for less; but most end. Beside the script stands .growths: the lines of the
    commands that take memory of their own, one growth each. On threads each of these says once that
    it was refused memory, and no other does; on one each ends the run."""
    words, text, wanted = [program, *options], script.read_bytes(), written(script)
    ended, whole, lines = 0, 0, []
    for thread in range(1 + len(re.findall(rb"^process ", text, re.M))):
        *refused, last = each_growth(words, text, thread=thread)
        claim_same(last, wanted)
        for answer in refused:
            if answer.status == 3:
                claim_same(answer, (3, b"", b"xheap: out of memory\n"))
                ended += 1
            elif answer[:3] == wanted:
                whole += 1
            else:
                lines.append(refused_line(words, text, answer))
    growths = [int(line) for line in script.with_suffix(".growths").read_text().split()]
    claim(ended > whole, f"{ended} runs ended, and {whole} were whole")
    is_so = ended > len(growths) if "--serial" in words else sorted(lines) == growths
    claim(is_so, f"{growths} take memory; {ended} runs ended, and {lines} were refused it")


def tests_of(program: Word) -> list[str]:
    return re.findall(r"^(.*): test$", run([program, "--list"]).out.decode(), re.M)


def growth_tests(file: str | pathlib.Path, *programs: pathlib.Path) -> None:
    """The list has the tests of these programs that have such a name, each behind its program, and
    no others."""
    rows = map(str.split, lines_of(file))
    listed = sorted(f"{program} {test}" for program, *tests in rows for test in tests)
    there = sorted(f"{program.name} {test}" for program in programs for test in tests_of(program)
                   if re.search("growth|without_memory", test))
    claim(listed and listed == there, f"in one of both: {sorted({*listed} ^ {*there})}")


def has_tests(program: Word, least: int) -> None:
    claim((count := len(tests_of(program))) >= least, f"it has {count} tests, and not {least}")


def threads_of(user: int) -> int:
    """How many threads run as a user: each of them counts for the limit."""
    count = 0
    for file in pathlib.Path("/proc").glob("[0-9]*/status"):
        with contextlib.suppress(OSError):
            it = re.search(rf"(?ms)^Uid:\t{user}\t.*^Threads:\t(\d+)$", file.read_text())
            count += int(it[1]) if it else 0
    return count


def ends_by_process_limit(program: str, *words: str) -> None:
    """At each limit, from one that lets no thread start to one that lets all, it ends in time: it
    is whole, or tells the refusal, with another status than 0 if it is no test. The first run is
    refused, and the last whole. Root is refused none, so where this runs as root the program runs
    as nobody. It is named by its open file, since nobody may not get to its folder."""
    user, by, refused = os.getuid(), list[str](), list[bool]()
    if user == 0:
        user = 65534
        by = ["setpriv", f"--reuid={user}", f"--regid={user}", "--clear-groups"]
    with open(program, "rb") as it:
        number = it.fileno()
        for limit in range(1, 8):
            limited = ["prlimit", f"--nproc={threads_of(user) + limit}", f"/proc/self/fd/{number}"]
            ran = subprocess.run([*by, *limited, *words], stdin=subprocess.DEVNULL,
                                 capture_output=True, pass_fds=[number], timeout=min(20, LIMIT))
            refused.append(b"a growth of memory was refused" in ran.stdout + ran.stderr)
            is_right = ran.returncode == 0 if words else (ran.returncode != 0) == refused[-1]
            claim(is_right, f"limit {limit}: {ran}")
    claim(refused[0] and not refused[-1], f"refused at limits 1, 2, ..: {refused}")
