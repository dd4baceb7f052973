#!/usr/bin/env python3
"""Refuses each allocation of the program in turn, and shows that a run then ends in want of memory with nothing written. Where the
allocation is one that a run can do without, which are named below, it may end in its own answer; it never ends in anything else:

    scripts/refused-memory.py                     the programs of ./mapchain and of crates/allocation_tests, which are proved
                                                  and built first where they have to be
    scripts/refused-memory.py path/to/mapchain    another program with the same commands

It needs a C compiler, the one that CC names, `cc` or `gcc`, and the C library of GNU: for N = 1, 2, .. a library of a few lines, which
it compiles and has the program load, refuses the Nth allocation, once, and reports which one that was. A command is through where a run
asked for fewer than N. Its answer is then the one that stands here. Then it runs crates/allocation_tests in the same way, where a
reducer that was refused memory has to answer the next call.

It ends with status 0, or with status 1 at the first run that ends in anything else, or where fewer runs than the number that stands beside a
command ended in its line of want of memory: then the library was not loaded, say, or refused less than it did. The gate runs it with the
programs that it built; it takes less than a minute.
"""
import os
import re
import subprocess
import sys
import tempfile
import time
from typing import NamedTuple

sys.dont_write_bytecode = True

from preloaded import compiled

ROOT = os.path.dirname(os.path.dirname(os.path.realpath(__file__)))

# What refuses. It reports the allocation that it refused, in words to a file: whether it is new, or a list that grows or shrinks,
# how many bytes were asked for, and how many files the run had opened.
REFUSING = r"""
#include <fcntl.h>
#include <malloc.h>
#include <stdarg.h>
#include <stdio.h>
#include <stdlib.h>
#include <unistd.h>

extern void *__libc_malloc(size_t);
extern void *__libc_calloc(size_t, size_t);
extern void *__libc_realloc(void *, size_t);
extern void *__libc_memalign(size_t, size_t);

static long left;
static int told;
static int opened;

__attribute__((constructor)) static void start(void) {
    left = atol(getenv("REFUSED_ALLOCATION"));
    told = atoi(getenv("REFUSED_TOLD"));
}

static int is_refused(const char *kind, size_t size) {
    char line[64];
    if (left <= 0 || --left > 0) return 0;
    int length = snprintf(line, sizeof line, "%s %zu %d", kind, size, opened);
    return write(told, line, length) == length;
}

int open(const char *path, int flags, ...) {
    va_list rest;
    va_start(rest, flags);
    mode_t mode = flags & O_CREAT ? va_arg(rest, mode_t) : 0;
    va_end(rest);
    opened++;
    return openat(AT_FDCWD, path, flags, mode);
}

void *malloc(size_t size) { return is_refused("new", size) ? NULL : __libc_malloc(size); }
void *calloc(size_t n, size_t size) { return is_refused("new", n * size) ? NULL : __libc_calloc(n, size); }
void *aligned_alloc(size_t by, size_t size) { return is_refused("new", size) ? NULL : __libc_memalign(by, size); }

void *realloc(void *old, size_t size) {
    const char *kind = old && size <= malloc_usable_size(old) ? "less" : "more";
    return is_refused(kind, size) ? NULL : __libc_realloc(old, size);
}
"""

# The allocations that a run can do without:
#
# - a list that gives back what it doesn't use keeps its room where it can't;
# - std collects the words of the command line, up to four after the program's name, with or without a list of 96 bytes, before a file is
#   opened;
# - the names of layers are looked through one by one where the set of them can't be had, whose nodes have these bytes. It is
#   asked for once all files are open, and that in which the system tells the limits of the process.
SHRINKING = "less"
WORDS_LIST = ("new", 96, 0)
NAME_SET = (248,)

# ---- the files


def layer(*geometries):
    """A FeatureCollection of features with these geometries, each a type and its coordinates."""
    features = ",".join(
        '{"type":"Feature","properties":null,"geometry":{"type":"%s","coordinates":%s}}' % it for it in geometries
    )
    return '{"type":"FeatureCollection","features":[%s]}' % features


def topology(name, geometries, arcs, bbox, transform=""):
    """The text of a topology with one object."""
    objects = '{"%s":{"type":"GeometryCollection","geometries":[%s]}}' % (name, ",".join(geometries))
    return '{"type":"Topology",%s"bbox":%s,"objects":%s,"arcs":%s}' % (transform, bbox, objects, arcs)


LINE = '{"type":"LineString","coordinates":[[0,0],[1.5,0.25]]}'
LINE_TOPOLOGY = topology("a", ['{"type":"LineString","arcs":[0]}'], "[[[0,0],[1.5,0.25]]]", "[0,0,1.5,0.25]")
BEND = '{"type":"LineString","coordinates":[[0,0],[1,1],[2,3],[3,0]]}'
BEND_TOPOLOGY = topology("b", ['{"type":"LineString","arcs":[0]}'], "[[[0,0],[1,1],[2,3],[3,0]]]", "[0,0,3,3]")
BENT_TOPOLOGY = topology("b", ['{"type":"LineString","arcs":[0]}'], "[[[0,0],[2,3],[3,0]]]", "[0,0,3,3]")
SQUARES = layer(
    ("Polygon", "[[[0,0],[1,0],[1,1],[0,1],[0,0]]]"), ("Polygon", "[[[1,0],[2,0],[2,1],[1,1],[1,0]]]")
)
SQUARES_TOPOLOGY = topology(
    "land",
    ['{"type":"Polygon","arcs":[[0,1]]}', '{"type":"Polygon","arcs":[[2,-1]]}'],
    "[[[1,0],[1,1]],[[1,1],[0,1],[0,0],[1,0]],[[1,0],[2,0],[2,1],[1,1]]]",
    "[0,0,2,1]",
)
WEST = layer(("Polygon", "[[[0,0],[1,0],[1,1],[0,1],[0,0]]]"))
EAST = layer(("Polygon", "[[[1,0],[2,0],[2,1],[1,1],[1,0]]]"))
TWO_LAYERS_TOPOLOGY = SQUARES_TOPOLOGY.replace(
    '{"land":{"type":"GeometryCollection","geometries":[{"type":"Polygon","arcs":[[0,1]]},',
    '{"west":{"type":"GeometryCollection","geometries":[{"type":"Polygon","arcs":[[0,1]]}]},'
    '"east":{"type":"GeometryCollection","geometries":[',
)
PEAK = layer(("LineString", "[[0,0],[0.5,1],[1,0]]"), ("Point", "[1,1]"))
PEAK_TOPOLOGY = topology(
    "g",
    ['{"type":"LineString","arcs":[0]}', '{"type":"Point","coordinates":[3,3]}'],
    "[[[0,0],[1,3],[2,-3]]]",
    "[0,0,1.000000002,1.000000002]",
    '"transform":{"scale":[0.333333334,0.333333334],"translate":[0,0]},',
)
LAND = layer(
    ("Polygon", "[[[0,0],[10,0],[10,10],[0,10],[0,0]],[[4,4],[4,5],[5,4],[4,4]]]"),
    ("Polygon", "[[[4,4],[5,4],[4,5],[4,4]]]"),
    ("LineString", "[[20,0],[30,0]]"),
)
FULL_TOPOLOGY = topology(
    "land",
    ['{"type":"Polygon","arcs":[[0],[1]]}', '{"type":"Polygon","arcs":[[-2]]}', '{"type":"LineString","arcs":[2]}'],
    "[[[0,0],[10,0],[10,10],[0,10],[0,0]],[[4,4],[4,5],[5,4],[4,4]],[[20,0],[30,0]]]",
    "[0,0,30,10]",
)
LAND_TOPOLOGY = topology(
    "land",
    ['{"type":"Polygon","arcs":[[0]]}', '{"type":null}', '{"type":"LineString","arcs":[1]}'],
    "[[[0,0],[10,0],[10,10],[0,10],[0,0]],[[20,0],[30,0]]]",
    "[0,0,30,10]",
)
ROOFS = ['{"type":"LineString","arcs":[0]}', '{"type":"LineString","arcs":[1]}', '{"type":"LineString","arcs":[2]}']
ROOF_ARCS = "[[[0,0],[2,2],[4,0]],[[2,1],[2,-5]],[[10,0],[11,1],[12,0]]]"
ROOF_TOPOLOGY = topology("roofs", ROOFS, ROOF_ARCS, "[0,-5,12,2]")
HELD_TOPOLOGY = topology("roofs", ROOFS, ROOF_ARCS.replace("[11,1],", ""), "[0,-5,12,2]")
ROOF_LAYER = layer(
    ("LineString", "[[0,0],[2,2],[4,0]]"),
    ("LineString", "[[2,1],[2,-5]]"),
    ("LineString", "[[10,0],[11,1],[12,0]]"),
)
# A layer with a member that isn't read and a crs of metres, of which one feature is lost where small rings go; and its topology whole, and without it.
NAMED_FEATURES = '"id":7,"properties":{"name":"Sark"}', '"properties":{"name":"Mainland"}'
NAMED = (
    '{"type":"FeatureCollection","crs":{"type":"name","properties":{"name":"EPSG:3857"}},"features":['
    '{"type":"Feature",%s,"geometry":{"type":"Polygon","coordinates":[[[20,0],[21,0],[21,1],[20,0]]]}},'
    '{"type":"Feature","bbox":[0,0,9,9],%s,"geometry":{"type":"Polygon","coordinates":[[[0,0],[9,0],[9,9],[0,0]]]}}]}'
) % NAMED_FEATURES
NAMED_TOPOLOGY = topology(
    "land",
    ['{"type":"Polygon",%s,"arcs":[[%d]]}' % (it, at) for at, it in enumerate(NAMED_FEATURES)],
    "[[[20,0],[21,0],[21,1],[20,0]],[[0,0],[9,0],[9,9],[0,0]]]",
    "[0,0,21,9]",
)
LESS_NAMED = topology(
    "land",
    ['{"type":null,%s}' % NAMED_FEATURES[0], '{"type":"Polygon",%s,"arcs":[[0]]}' % NAMED_FEATURES[1]],
    "[[[0,0],[9,0],[9,9],[0,0]]]",
    "[0,0,9,9]",
)
LOST = 'feature 0, id 7, name "Sark": nothing of its geometry is left'
FILES = {
    "line.json": LINE,
    "named.json": NAMED,
    "named.topojson": NAMED_TOPOLOGY,
    "cut.json": LINE[:40],
    "bend.json": BEND,
    "bend.topojson": BEND_TOPOLOGY,
    "line.topojson": LINE_TOPOLOGY,
    "squares.json": SQUARES,
    "west.json": WEST,
    "east.json": EAST,
    "peak.json": PEAK,
    "land.json": LAND,
    "full.topojson": FULL_TOPOLOGY,
    "less.topojson": LAND_TOPOLOGY,
    "roofs.topojson": ROOF_TOPOLOGY,
    "roofs.json": ROOF_LAYER,
}

# ---- the runs


def report(arcs, kept, drops=(), removed=0):
    """The text of a report that counts nothing else."""
    dropped = "".join(f"drop {it}\n" for it in drops)
    return f"rounded 0\nextra 0\nempty 0\ndropped {len(drops)}\n{dropped}arcs {arcs}\nkept {kept}\nremoved {removed}\n"


def run_report(status, fault, counted, *explanation):
    """The report of a run as JSON."""
    lines = ",".join('"%s"' % line.replace('"', r'\"') for line in explanation)
    return '{"status":%d,"fault":%s,"report":%s,"explanation":[%s]}\n' % (status, fault, counted, lines)


def fault(code, name, layer="null"):
    """A fault in the report of a run."""
    return '{"code":%s,"name":"%s","layer":%s,"feature":null,"at":null,"sent":null}' % (code, name, layer)


# The files of an output and of the report of a run, where they go to files.
OUTPUT, REPORT = "output", "run.json"
SMALL = ("0 0 1 small", "0 1 0 small")
BUILD, FILE = "B7", "E6"
# Lines that explain a run, some or all of which aren't there where memory for them is refused.
KEPT_ALL = "kept 2 of 2 positions of the arcs that are written, 100.0 %"
KEPT_RING = "kept 4 of 4 positions of the arcs that are written, 100.0 %"
CUT_SHORT = (
    'layer 0 is "a", the file cut.json',
    "line 1, column 41 (byte 40): the text ends too early",
    "the array begins at line 1, column 37 (byte 36)",
)
LINE_COUNTED = '{"rounded":0,"extra":0,"empty":0,"dropped":[],"lost":0,"arcs":1,"kept":2,"removed":0,"chosen":null}'
LINE_LAYER = layer(("LineString", "[[0,0],[1.5,0.25]]"))
SUMMARY = 'objects 1\n"land" 3\narcs 2\npositions 7\ngrid no\n'
CONTENTS = (
    'object "land": LineString 1, Polygon 1, null 1, 7 positions decoded',
    "x goes from 0 to 30, and y from 0 to 10",
    "arcs of two features or more 0, of one 2, of none 0",
)


class Run(NamedTuple):
    """A command, and what comes of it: its status, standard output or the file of its output, standard error, the code of its want of
    memory, how often that is told at least where each allocation is refused in turn, and the report of the run, if it writes one."""

    words: str
    status: int
    output: str
    error: str
    memory: str
    least: int
    report: str | None = None


RUNS = (
    Run("build a=line.json", 0, LINE_TOPOLOGY, report(1, 2), BUILD, 20),
    Run("build land=squares.json", 0, SQUARES_TOPOLOGY, report(3, 10), BUILD, 30),
    Run("build west=west.json east=east.json", 0, TWO_LAYERS_TOPOLOGY, report(3, 10), BUILD, 30),
    Run("build --grid 4 g=peak.json", 0, PEAK_TOPOLOGY, report(1, 3), BUILD, 20),
    Run("build --min-area 1 land=land.json", 0, LAND_TOPOLOGY, report(2, 7, SMALL), BUILD, 35),
    Run("build --min-ring-area 1 land=land.json", 0, LAND_TOPOLOGY, report(2, 7, SMALL), BUILD, 30),
    Run("build --keep 1/2 b=bend.json", 0, BENT_TOPOLOGY, report(1, 3, removed=1) + "chosen 9000000000000000000\n", BUILD, 25),
    Run("build --no-crossings --min-area=5 roofs=roofs.json", 0, HELD_TOPOLOGY, report(3, 7, removed=1), BUILD, 40),
    Run("build --no-crossings --keep=1/2 roofs=roofs.json", 0, ROOF_TOPOLOGY, report(3, 8) + "chosen 2000000000000000000\n", BUILD, 50),
    Run("build --keep-shapes --min-area=1 land=land.json", 0, FULL_TOPOLOGY, report(3, 11), BUILD, 50),
    Run("build a=line.json b=cut.json", 1, "", "error: layer 1 J2 Malformed\n", BUILD, 5),
    Run("build a=line.json b=line.json a=line.json", 2, "", "error: layer 2 B2 DuplicateName\n", BUILD, 0),
    Run("build --explain a=line.json", 0, LINE_TOPOLOGY, f"{report(1, 2)}  {KEPT_ALL}\n", BUILD, 20),
    Run(
        "build --explain --min-ring-area 2 land=named.json",
        0,
        LESS_NAMED,
        report(1, 4, ("0 0 0 small",))
        + f"  {KEPT_RING}\n  layer 0, {LOST}\n"
        + '  layer 0: "bbox" 1, "crs" 1 left out\n'
        + '  layer 0: its "crs" is "EPSG:3857": coordinates are taken as they are, so areas are in square units of it, which may not be degrees\n',
        BUILD,
        30,
    ),
    Run(
        "simplify --explain --min-ring-area 2 named.topojson",
        0,
        LESS_NAMED,
        report(1, 4, ("0 0 0 small",)) + f'  {KEPT_RING}\n  object "land", {LOST}\n',
        FILE,
        25,
    ),
    Run("build --explain a=cut.json", 1, "", "".join(["error: layer 0 J2 Malformed\n", *(f"  {it}\n" for it in CUT_SHORT)]), BUILD, 1),
    Run("simplify --min-area 1 full.topojson", 0, LAND_TOPOLOGY, report(2, 7, SMALL), FILE, 25),
    Run("simplify --min-ring-area 1 full.topojson", 0, LAND_TOPOLOGY, report(2, 7, SMALL), FILE, 25),
    Run("simplify --keep 1/2 bend.topojson", 0, BENT_TOPOLOGY, report(1, 3, removed=1) + "chosen 9000000000000000000\n", FILE, 20),
    Run("simplify --no-crossings --min-area=5 roofs.topojson", 0, HELD_TOPOLOGY, report(3, 7, removed=1), FILE, 30),
    Run("simplify --no-crossings --keep=1/2 roofs.topojson", 0, ROOF_TOPOLOGY, report(3, 8) + "chosen 2000000000000000000\n", FILE, 40),
    Run("simplify --keep-shapes --min-area=1 full.topojson", 0, FULL_TOPOLOGY, report(3, 11), FILE, 40),
    Run("geo --object a line.topojson", 0, LINE_LAYER, "", FILE, 6),
    Run("stat less.topojson", 0, SUMMARY, "", FILE, 10),
    Run("stat --explain less.topojson", 0, SUMMARY, "".join(f"  {it}\n" for it in CONTENTS), FILE, 10),
    Run("stat --crossings less.topojson", 0, SUMMARY + "crossings 0\n", "", FILE, 20),
    Run(f"build -o {OUTPUT} a=line.json", 0, LINE_TOPOLOGY, report(1, 2), BUILD, 20),
    Run(f"simplify --min-area=1 --output={OUTPUT} full.topojson", 0, LAND_TOPOLOGY, report(2, 7, SMALL), FILE, 25),
    Run(f"geo --object=a --output={OUTPUT} line.topojson", 0, LINE_LAYER, "", FILE, 6),
    Run(f"stat -o {OUTPUT} less.topojson", 0, SUMMARY, "", FILE, 10),
    Run(
        f"build --report={REPORT} a=line.json",
        0,
        LINE_TOPOLOGY,
        report(1, 2),
        BUILD,
        20,
        run_report(0, "null", LINE_COUNTED, KEPT_ALL),
    ),
    Run(
        f"build --report={REPORT} a=cut.json",
        1,
        "",
        "error: layer 0 J2 Malformed\n",
        BUILD,
        1,
        run_report(1, fault('"J2"', "Malformed", 0), "null", *CUT_SHORT),
    ),
    Run(f"geo --object=a --report={REPORT} line.topojson", 0, LINE_LAYER, "", FILE, 6, run_report(0, "null", "null")),
)
# How many allocations are refused at least, in all commands together.
LEAST = 4000
# How often at least a reducer that is called twice is refused memory in either call.
REDUCED_AGAIN = {"refused, and then answered": 3, "answered, and then refused": 1}
# What is told where memory is refused before an output to a file is begun, and where it is refused to the report of a run.
UNBEGUN = ("error: B6 Write sent 0\n", "error: E5 Write sent 0\n")
UNREPORTED = "error: F4 NoReport\n"


class Ended(NamedTuple):
    """How a run ended: its status, standard output or the file of its output, standard error, the report of the run, and the allocation that
    was refused, if it was asked for: what it was, how many bytes, and how many files were open before."""

    status: int
    output: str
    error: str
    report: str | None
    refused: tuple | None


class Refusing:
    """Runs programs in a folder, and has one of their allocations refused."""

    def __init__(self, folder):
        self.folder = folder
        self.library = compiled(REFUSING, f"{folder}/refusing.so")

    def run(self, words, number):
        """How a run ends whose allocation of this number is refused. It may leave no file behind but those of its output and its report."""
        before = {*os.listdir(self.folder), "told"}
        with open(f"{self.folder}/told", "wb") as told:
            file = told.fileno()
            env = {"LD_PRELOAD": self.library, "REFUSED_ALLOCATION": str(number), "REFUSED_TOLD": str(file)}
            ended = subprocess.run(words, cwd=self.folder, env=env, pass_fds=[file], capture_output=True, timeout=60)
        with open(f"{self.folder}/told") as told:
            kind, *numbers = told.read().split() or [None]
        output = ended.stdout.decode() + (self.taken(OUTPUT) or "")
        report = self.taken(REPORT)
        if {*os.listdir(self.folder)} != before:
            output += "and left a file behind"
        return Ended(ended.returncode, output, ended.stderr.decode(), report, kind and (kind, *map(int, numbers)))

    def taken(self, name):
        """The text of a file, which is taken away, if it is there."""
        path = f"{self.folder}/{name}"
        if not os.path.exists(path):
            return None
        with open(path) as file:
            text = file.read()
        os.remove(path)
        return text


def is_dispensable(words, refused):
    """Whether a run of this command can do without this allocation."""
    kind, size, opened = refused
    files = sum("=" in it and not it.startswith("-") for it in words) + (OUTPUT in words)
    is_of_names = kind == "new" and size in NAME_SET and words[0] == "build" and opened == files + 1
    return kind == SHRINKING or refused == WORDS_LIST or is_of_names


def fail(words, number, ended):
    """Tells of a run that ended in anything else, and ends."""
    print(f"{words}: allocation {number}, {ended.refused}, refused: status {ended.status}", file=sys.stderr)
    print(ended.output, ended.error, ended.report, sep="\n", file=sys.stderr)
    sys.exit(1)


def explained_less(error):
    """The same with as many lines of its explanation or fewer of the last ones."""
    lines = error.splitlines(True)
    first = next((at for at, line in enumerate(lines) if line.startswith("  ")), len(lines))
    return ["".join(lines[:end]) for end in range(first, len(lines) + 1)]


def reported_less(report):
    """The same with its explanation or without."""
    return [report, report and re.sub(r'"explanation":\[.*\]', '"explanation":[]', report)]


def of_memory(run, code):
    """The report of a run that ends in want of memory, with this code of it, if it writes one."""
    return run.report and run_report(3, fault(code, "Memory"), "null")


def kind_of(run, ended):
    """How a run ended whose allocation was refused: nothing where it ended as none may."""
    words = run.words.split()
    status, output, error, report, refused = ended
    if (status, output, error, report) == (run.status, run.output, run.error, run.report) and is_dispensable(words, refused):
        return "answered"
    if (status, output) == (run.status, run.output):
        if "--explain" in words and error in explained_less(run.error):
            return "unexplained"
        if run.report and error == run.error and report in reported_less(run.report):
            return "unexplained"
    if (status, output, error, report) == (3, "", f"error: {run.memory} Memory\n", of_memory(run, f'"{run.memory}"')):
        return "told"
    if (status, output, error) == (3, "", "") and report in (None, of_memory(run, "null")):
        return "silent"
    if OUTPUT in run.words and (status, output) == (3, "") and error in UNBEGUN:
        return "unbegun"
    if run.report and (status, output, error, report) == (run.status or 3, run.output, run.error + UNREPORTED, None):
        return "unreported"
    return None


# What a run is said to have ended in, by its kind. The rarer ones are only named where there are any.
ENDS = {
    "told": "in the line of want of memory",
    "silent": "in status 3 with no line",
    "answered": "in the answer",
    "unbegun": "before the output was begun",
    "unexplained": "with less of an explanation",
    "unreported": "in the answer with no report",
}


def refuse_each(refusing, program, run):
    """Refuses each allocation of a run of the program, and prints how the runs ended."""
    counts = dict.fromkeys(ENDS, 0)
    number = 1
    while (ended := refusing.run([program, *run.words.split()], number)).refused:
        kind = kind_of(run, ended)
        # (want of memory has no line before a file is read, and has its line from then on)
        if not kind or kind == "silent" and counts["told"]:
            fail(run.words, number, ended)
        counts[kind] += 1
        number += 1
    if ended[:4] != (run.status, run.output, run.error, run.report):
        fail(run.words, number, ended)
    ends = ", ".join(f"{counts[kind]} {ENDS[kind]}" for kind in ENDS if counts[kind])
    print(f"{run.words}: {number - 1} allocations, each refused once: {ends}")
    if counts["told"] < run.least:
        sys.exit(f"{run.words}: {counts['told']} runs ended in the line of want of memory, and at least {run.least} have to")
    return number - 1


def reduce_again(refusing, program):
    """Refuses each allocation of a reducer that is called twice, and prints how the runs ended."""
    counts = {"refused, and then answered": 0, "answered, and then refused": 0}
    number = 1
    while (ended := refusing.run([program], number)).refused:
        told = ended.output.strip()
        if ended.status != 0 or told not in counts:
            fail("a reducer", number, ended)
        counts[told] += 1
        number += 1
    if (ended.status, ended.output.strip(), ended.error) != (0, "answered twice", ""):
        fail("a reducer", number, ended)
    print(f"a reducer, called twice: {number - 1} allocations, each refused once: {counts}")
    if any(counts[told] < least for told, least in REDUCED_AGAIN.items()):
        fail(f"a reducer was refused less than {REDUCED_AGAIN}", number, ended)


def program_path():
    """The program that ./mapchain runs."""
    return subprocess.run([f"{ROOT}/scripts/program-path.sh"], stdout=subprocess.PIPE, text=True, check=True).stdout.rstrip("\n")


def built(name):
    """The program of a crate, which is built where it isn't there."""
    program = f"{ROOT}/crates/{name}/out/{name}"
    if not os.path.exists(program):
        subprocess.run(["rt", "run"], cwd=f"{ROOT}/crates/{name}", stdout=subprocess.DEVNULL, check=True)
    return program


def main():
    program = os.path.abspath(sys.argv[1]) if len(sys.argv) > 1 else program_path()
    reducing = os.path.abspath(sys.argv[2]) if len(sys.argv) > 2 else built("allocation_tests")
    start = time.monotonic()
    with tempfile.TemporaryDirectory() as folder:
        for name, text in FILES.items():
            with open(f"{folder}/{name}", "w") as file:
                file.write(text)
        refusing = Refusing(folder)
        total = sum(refuse_each(refusing, program, run) for run in RUNS)
        reduce_again(refusing, reducing)
    print(f"{total} allocations in {len(RUNS)} commands, {time.monotonic() - start:.0f} seconds")
    if total < LEAST:
        sys.exit(f"at least {LEAST} allocations are to be refused")


if __name__ == "__main__":
    main()
