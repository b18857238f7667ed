#!/usr/bin/env python3
"""The store's work against the same work in C: instructions an operation, counted by valgrind.

usage: python3 bench/measure.py             builds, compares and counts; prints the tables
       python3 bench/measure.py --write     the same, and puts them into docs/SPEED.md
       python3 bench/measure.py --expected  writes crates/bench/stdout by the C program alone

It builds crates/bench and crates/barometer twice, as LLVM compiles them and as the kit's own
compiler does, and the C of this folder, all into bench/out. Then every program is given the same
jobs or lines; at an answer that is not the C program's it stops. An operation's instructions are
those of a run with many repetitions less those of one with few, over the difference, so that what
comes before the repetitions does not count.

Needed: rt, valgrind, make, and a C compiler with the headers of a C library, which also links. The
C is compiled by the clang of the kit where the kit has it: then one compiler makes both sides.

On 4 processors that had other work as well it took 3 to 5 minutes where the machine had proved the
crates before: 1 to 2 for the programs, 2 to 3 for some 240 runs under valgrind; and 23 minutes once,
when rt had to wait for other provers. From nothing it was not timed: the crates below are proved
first then, some 10 minutes by what docs/DECISIONS.md tells of each.
"""

import concurrent.futures
import os
import re
import shutil
import subprocess
import sys
from dataclasses import dataclass
from typing import Optional

HERE = os.path.dirname(os.path.abspath(__file__))
TOP = os.path.dirname(HERE)
OUT = os.path.join(HERE, "out")
PAGE = os.path.join(TOP, "docs", "SPEED.md")
BEGIN, END = "<!-- measured: begin -->", "<!-- measured: end -->"

# What a session is given may be any bytes.
ANY_BYTES = "latin-1"

# Who made a program: C, LLVM of what is proved, and the kit's own compiler of the same.
MAKERS = {"C": "C", "LLVM": "LLVM", "kit": "kit's compiler"}
PROGRAMS = {
    "job": {"C": "bench", "LLVM": "bench_llvm", "kit": "bench_kit"},
    "session": {"C": "session", "LLVM": "barometer_llvm", "kit": "barometer_kit"},
}

# Without this the C library erases a large bank by one instruction, of which valgrind counts every
# byte, and most of what a commit to the other bank costs would be that.
TUNED = {**os.environ, "GLIBC_TUNABLES": "glibc.cpu.x86_rep_stosb_threshold=1000000000"}


@dataclass(frozen=True)
class Work:
    """A job without its repetitions, or none for lines of a session; and how often, twice."""

    name: str
    job: str
    few: int
    many: int
    aim: Optional[float] = None

    def kind(self):
        return "job" if self.job else "session"

    def given(self, times):
        return f"{self.job} {times}\n" if self.job else session_lines(times)


# A session's line, and what the page judges itself by: LLVM's instructions for one of C.
LINE = Work("a line of the session", "", 500, 4500, 2.5)
MAIN = (
    Work("recover, full bank, U = 64", "full simulator 64 12", 20, 120, 2.6),
    Work("recover, full bank, U = 2048", "full simulator 2048 12", 2, 12, 2.6),
    Work("recover, just formatted, U = 64", "fresh simulator 64 12", 20, 120, 4.0),
    Work("recover, just formatted, U = 2048", "fresh simulator 2048 12", 2, 12, 4.0),
    # 50 cycles of 4 commits, one of which goes to the other bank
    Work("begin, 12 puts, commit, U = 64", "commit simulator 64 12", 40, 240, 1.8),
    Work("begin, 12 puts, abandon", "change simulator 64 12", 40, 240),
    Work("temperature and pressure", "reading simulator 64 12", 40, 240, 6.0),
    Work("get", "get simulator 64 12", 130, 1430, 2.3),
    Work("recover, full bank of an image, U = 64", "full image 64 12", 20, 120),
    Work("recover over a mirror of two simulators, U = 64", "full simulators 64 12", 20, 120),
    Work("recover over a mirror of two images, U = 64", "full mirror 64 12", 20, 120, 3.2),
    Work("recover over a mirror of two such mirrors, U = 64", "full mirrors 64 12", 20, 120, 3.2),
    LINE,
)

# How the cost grows: the title of each table, and a work for each of its columns.
GROWTH = (
    (
        "A recover of a full bank, 12 pairs a commit, by the units of a bank",
        (
            Work("U = 64", "full simulator 64 12", 20, 120),
            Work("U = 256", "full simulator 256 12", 10, 60),
            Work("U = 2048", "full simulator 2048 12", 2, 12),
        ),
    ),
    (
        "A recover of a full bank, U = 256, by the pairs of each commit",
        (
            Work("1 pair", "full simulator 256 1", 10, 60),
            Work("6 pairs", "full simulator 256 6", 10, 60),
            Work("12 pairs", "full simulator 256 12", 10, 60),
        ),
    ),
    (
        "A recover, U = 2048, 12 pairs a commit, by what the active bank holds",
        (
            Work("just formatted", "fresh simulator 2048 12", 2, 12),
            Work("half full", "half simulator 2048 12", 2, 12),
            Work("full", "full simulator 2048 12", 2, 12),
        ),
    ),
    (
        "A begin, its puts and a commit behind the end, U = 2048, by the pairs",
        (
            Work("1 pair", "commit simulator 2048 1", 10, 110),
            Work("6 pairs", "commit simulator 2048 6", 10, 110),
            Work("12 pairs", "commit simulator 2048 12", 10, 110),
        ),
    ),
    (
        "The same, U = 2048, 12 pairs, by how full the bank is",
        (
            Work("1 to 14 %", "commit simulator 2048 12", 2, 22),
            Work("43 to 56 %", "commit simulator 2048 12", 68, 88),
            Work("86 to 99 %", "commit simulator 2048 12", 136, 156),
        ),
    ),
    (
        "The same, 12 pairs, by the units of a bank",
        (
            Work("U = 64", "commit simulator 64 12", 1, 4),
            Work("U = 256", "commit simulator 256 12", 1, 19),
            Work("U = 2048", "commit simulator 2048 12", 1, 151),
        ),
    ),
    (
        "A begin, 12 puts and the commit that goes to the other bank, by the units of a bank",
        (
            Work("U = 64", "commit simulator 64 12", 4, 5),
            Work("U = 256", "commit simulator 256 12", 19, 20),
            Work("U = 2048", "commit simulator 2048 12", 157, 158),
        ),
    ),
)

OPS = ("full", "half", "fresh", "commit", "change", "get", "reading")
KINDS = ("simulator", "image", "mirror", "mirrors", "simulators")

# Jobs whose answers alone are compared, and works whose allocations are counted.
COMPARED = [
    f"{op} {kind} {units} {pairs} 30\n"
    for op in (*OPS, "written")
    for kind in KINDS
    for units, pairs in ((64, 0), (64, 1), (64, 6), (64, 12), (100, 5), (256, 6), (2048, 12))
] + [f"random {kind} {units} 0 2000\n" for kind in KINDS for units in (64, 100)]
ALLOCATING = [LINE] + [
    Work(f"{op} {kind}", f"{op} {kind} 64 12", 20, 120)
    for op in OPS
    for kind in ("simulator", "mirrors")
]


def works():
    return [*MAIN, *(work for _, columns in GROWTH for work in columns)]


def session_lines(count):
    """A calibration, then readings, gets, changes, recovers and lines that are no command."""
    names = ["AC1", "AC2", "AC3", "AC4", "AC5", "AC6", "B1", "B2", "MB", "MC", "MD"]
    values = [408, -72, -14383, 32741, 32757, 23153, 6190, 4, -32768, -8711, 2868]
    lines = ["format", "begin", *map("put {} {}".format, names, values), "commit"]
    names += ["OSS", "PCOR"]
    i = 0
    while len(lines) < count:
        for k in range(8):
            lines.append(f"temp {27000 + (i * 7 + k) % 1000}")
            lines.append(f"press {23000 + (i * 13 + k * 5) % 4096}")
        lines += [f"get {names[(i + k * 3) % 13]}" for k in range(4)]
        if i % 3 == 0:
            lines += ["begin", f"put B2 {1 + i % 9}", f"put PCOR {i % 1001 - 500}"]
            lines += [f"put AC4 {32741 - i % 5}", "commit"]
        if i % 10 == 0:
            lines.append("recover")
        if i % 7 == 0:
            lines += ["press 23843", "get NOPE", "begin", "abandon", ""]
        i += 1
    return "\n".join(lines[:count]) + "\n"


def stop(why):
    sys.exit(f"measure: {why}")


def tell(text):
    print(f"measure: {text}", file=sys.stderr, flush=True)


def said(words, **how):
    """What a command prints; stops where it fails."""
    ran = subprocess.run(words, stdout=subprocess.PIPE, stderr=subprocess.STDOUT, text=True, **how)
    if ran.returncode:
        stop(f"{' '.join(words)} failed:\n{ran.stdout[-3000:]}")
    return ran.stdout


# Building


def system_compiler():
    found = next((it for it in ("gcc", "clang", "cc") if shutil.which(it)), None)
    return found or stop("there is no C compiler here")


def kit_clang():
    """The path of the kit's clang; none where there is no kit or no clang in it."""
    if not shutil.which("rt"):
        return None
    kit = os.path.dirname(said(["rt", "doc"]).strip())
    path = os.path.join(kit, "toolchain", "bin", "clang")
    return path if os.path.isfile(path) else None


def build_c():
    """Builds the C, and answers the name of the compiler."""
    system, clang = system_compiler(), kit_clang()
    words = system
    if clang:
        # It has no headers of its own: it takes those of the compiler beside it, as stdint.h.
        words = f"{clang} -isystem {said([system, '-print-file-name=include']).strip()}"
    said(["make", "-B", "-C", HERE, f"CC={words}", f"LINK={system}"])
    name = said([clang or system, "--version"]).splitlines()[0]
    return f"the kit's {name}" if clang else name


def build_proved(crate):
    """By the kit's compiler, and then by LLVM, so that what stays in the crate is LLVM's."""
    folder = os.path.join(TOP, "crates", crate)
    plain = {key: it for key, it in os.environ.items() if key != "RT_BACKEND"}
    for maker, words in (("kit", ["--backend", "rattle"]), ("llvm", [])):
        tell(f"proves and builds {crate} ({maker})")
        said(["rt", "run", *words], cwd=folder, env=plain, stdin=subprocess.DEVNULL)
        shutil.copy(os.path.join(folder, "out", crate), os.path.join(OUT, f"{crate}_{maker}"))


# Running


def program(kind, maker):
    return os.path.join(OUT, PROGRAMS[kind][maker])


def answers(kind, maker, given):
    how = {"stdout": subprocess.PIPE, "encoding": ANY_BYTES}
    ran = subprocess.run([program(kind, maker)], input=given, **how)
    if ran.returncode:
        stop(f"{PROGRAMS[kind][maker]} ended with {ran.returncode}")
    return ran.stdout


def stream(crate, name):
    with open(os.path.join(TOP, "crates", crate, name), encoding=ANY_BYTES, newline="") as file:
        return file.read()


def compare_lines(kind, given):
    """Each line has an answer, and every program gives the same."""
    lines = given.splitlines()
    wanted = answers(kind, "C", given).splitlines()
    for maker in MAKERS:
        got = answers(kind, maker, given).splitlines()
        for line, by_c, by_maker in zip(lines, wanted, got):
            if by_c != by_maker:
                stop(f"{line}: {MAKERS[maker]} answers {by_maker}, C {by_c}")
        if len(got) != len(lines):
            stop(f"{MAKERS[maker]} has answered {len(got)} of {len(lines)} lines")


def compare():
    """Stops where an answer is not the C program's; how many answers were compared, in words."""
    jobs = [work.given(times) for work in works() if work.job for times in (work.few, work.many)]
    compare_lines("job", "".join(jobs + COMPARED))
    compare_lines("session", session_lines(5000))
    for kind, crate in (("job", "bench"), ("session", "barometer")):
        if answers(kind, "C", stream(crate, "stdin")) != stream(crate, "stdout"):
            stop(f"C answers otherwise than crates/{crate}/stdout")
    return f"The same answers to {len(jobs + COMPARED)} jobs and to 5000 lines of a session."


def counted(tool, pattern, kind, maker, given):
    """A number that valgrind tells of a run."""
    words = ["valgrind", *tool, program(kind, maker)]
    how = {"stdout": subprocess.DEVNULL, "stderr": subprocess.PIPE, "encoding": ANY_BYTES}
    ran = subprocess.run(words, input=given, env=TUNED, **how)
    found = re.search(pattern, ran.stderr)
    if ran.returncode or not found:
        stop(f"{' '.join(words)} failed:\n{ran.stderr[-2000:]}")
    return int(found.group(1).replace(",", ""))


def instructions(work, maker):
    """Of one repetition."""
    tool, pattern = ["--tool=callgrind", "--callgrind-out-file=/dev/null"], r"Collected : (\d+)"
    few, many = (
        counted(tool, pattern, work.kind(), maker, work.given(times))
        for times in (work.few, work.many)
    )
    return (many - few) / (work.many - work.few)


def heap(what, kind, given):
    """Of the LLVM build's use of memory: how many `allocs` it makes, or `bytes allocated`."""
    tool = ["--tool=memcheck", "--leak-check=no", "--undef-value-errors=no"]
    return counted(tool, rf"total heap usage:.*?([\d,]+) {what}", kind, "LLVM", given)


def is_steady(work):
    """Whether many repetitions make no more allocations than few."""
    few, many = (heap("allocs", work.kind(), work.given(times)) for times in (work.few, work.many))
    return few == many


def bytes_a_unit(kind):
    less, more = (heap("bytes allocated", "job", f"get {kind} {u} 0 10\n") for u in (1024, 2048))
    return (more - less) / (2 * 1024)


def measure():
    """The instructions by work and maker; which works are steady; the bytes a unit by kind."""
    with concurrent.futures.ThreadPoolExecutor(os.cpu_count()) as pool:
        pairs = [(work, maker) for work in set(works()) for maker in MAKERS]
        costs = dict(zip(pairs, pool.map(lambda pair: instructions(*pair), pairs)))
        steady = dict(zip(ALLOCATING, pool.map(is_steady, ALLOCATING)))
        sizes = dict(zip(KINDS[:2], pool.map(bytes_a_unit, KINDS[:2])))
    return costs, steady, sizes


# Tables


def number(x):
    return f"{x:,.0f}" if x >= 1000 else f"{x:.1f}"


def ratio(costs, work, maker):
    return costs[work, maker] / costs[work, "C"]


def aim_text(costs, work):
    if work.aim is None:
        return ""
    return f"{work.aim}, {'met' if ratio(costs, work, 'LLVM') <= work.aim else 'not met'}"


def table(head, rows):
    rule = ["---", *["--:"] * (len(head) - 1)]
    return ["| " + " | ".join(row) + " |" for row in (head, rule, *rows)]


def main_table(costs):
    rows = []
    for work in MAIN:
        row = [work.name, number(costs[work, "C"])]
        for maker in list(MAKERS)[1:]:
            row += [number(costs[work, maker]), f"{ratio(costs, work, maker):.2f}"]
        rows.append([*row, aim_text(costs, work)])
    return table(("Work", "C", "LLVM", "× C", "kit's compiler", "× C", "LLVM, aim"), rows)


def growth_cell(costs, work, maker):
    text = number(costs[work, maker])
    return text if maker == "C" else f"{text} ({ratio(costs, work, maker):.2f})"


def growth_table(costs, columns):
    rows = [
        [name, *(growth_cell(costs, work, maker) for work in columns)]
        for maker, name in MAKERS.items()
    ]
    return table(("", *(work.name for work in columns)), rows)


def memory_text(steady, sizes):
    more = [work.name for work, is_so in steady.items() if not is_so]
    told = "as many with many repetitions as with few"
    if more:
        told = f"more with many repetitions than with few at {', '.join(more)}"
    each = ", ".join(f"{size:.1f} of {name}" for name, size in sizes.items())
    return f"Allocations of {len(steady)} works (LLVM): {told}. Bytes a unit: {each}."


def machine():
    with open("/proc/cpuinfo", encoding="utf-8") as file:
        names = re.findall(r"^model name\s*: (.*)$", file.read(), re.M)
    return names[0] if names else os.uname().machine


def page_text(costs, steady, sizes, compiler, compared):
    kit, valgrind = said(["rt", "version"]).strip(), said(["valgrind", "--version"]).strip()
    lines = [f"Kit: `{kit}`. C: {compiler}. Counted by {valgrind} on {machine()}. {compared}"]
    lines += ["", *main_table(costs), "", "In instructions, and in brackets × C:"]
    for title, columns in GROWTH:
        lines += ["", f"{title}:", "", *growth_table(costs, columns)]
    return "\n".join([*lines, "", memory_text(steady, sizes)])


def write_page(text):
    with open(PAGE, encoding="utf-8") as file:
        page = file.read()
    if page.count(BEGIN) != 1 or page.count(END) != 1:
        stop(f"{PAGE} has no place for the tables")
    before, after = page.split(BEGIN)[0], page.split(END)[1]
    with open(PAGE, "w", encoding="utf-8") as file:
        file.write(f"{before}{BEGIN}\n\n{text}\n\n{END}{after}")


def write_expected():
    build_c()
    with open(os.path.join(TOP, "crates", "bench", "stdout"), "w", encoding="utf-8") as file:
        file.write(answers("job", "C", stream("bench", "stdin")))


def main():
    if sys.argv[1:] == ["--expected"]:
        return write_expected()
    if sys.argv[1:] not in ([], ["--write"]):
        stop("usage: python3 bench/measure.py [--write | --expected]")
    for tool in ("rt", "valgrind", "make"):
        if not shutil.which(tool):
            stop(f"there is no {tool} here")
    compiler = build_c()
    for crate in ("bench", "barometer"):
        build_proved(crate)
    compared = compare()
    tell(compared)
    text = page_text(*measure(), compiler, compared)
    print(text)
    if sys.argv[1:]:
        write_page(text)


if __name__ == "__main__":
    main()
