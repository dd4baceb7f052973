#!/usr/bin/env python3
"""Gives the program files and streams of strangers, and shows that each run ends as docs/FORMATS.md says, and in what time:

    scripts/robustness.py                     the program of ./mapchain, which is proved and built first where it has to be
    scripts/robustness.py path/to/mapchain    another program with the same commands
    scripts/robustness.py --short             the same with small files, as the gate does it

First the deepest nesting that is taken, of each kind, and one more, with a stack of 256 KiB. Then streams: pipes that close early,
a full disk, closed streams, folders, files that can't be read, named pipes, files with no end. Then large files, at a tenth of
their size and whole: the seconds of both, the growth, which is the time a byte at the whole size over that at the tenth, and the
greatest peak of memory. Of these times nothing is claimed. Then collections in collections, one and as deep as they may nest: the processor
time of a byte may not triple. At last files of 10^4, 10^5 and 10^6 positions that were chosen so that
they, or the segments between them, have one hash where the hash is one that is known before the run: the processor time of a byte
may not double from the first to the last.

It ends with status 1 where a run ends in anything else, and where fewer runs were judged than stand beside each part. It takes some three
minutes, 2 GB of memory and 300 MB of disk, and has up to 10^5 files open at once: as many as `ulimit -Hn` allows. The short form
takes large files at a hundredth of their size, and chosen positions up to 10^5, and some fifteen seconds.
"""
import argparse
import json
import math
import os
import resource
import shlex
import shutil
import socket
import subprocess
import sys
import tempfile
import threading
import time

ROOT = os.path.dirname(os.path.dirname(os.path.realpath(__file__)))
PROGRAM_PATH = [f"{ROOT}/scripts/program-path.sh"]
WORDS = argparse.ArgumentParser(description="Gives the program files and streams of strangers.")
WORDS.add_argument("program", nargs="?", type=os.path.abspath, help="the program, in place of that of ./mapchain")
WORDS.add_argument("--short", action="store_true", help="with small files")
ASKED = WORDS.parse_args()
PROGRAM = ASKED.program or subprocess.check_output(PROGRAM_PATH, text=True).rstrip("\n")
counts = {"judged": 0, "otherwise": 0}


def expect(name, wanted, found):
    """Prints how a run ended, and notes it where that isn't as it should."""
    if judge(name, wanted, found) and not ASKED.short:
        print(f"{name}: {found}", flush=True)


def judge(name, wanted, found):
    """Whether a run ended as it should. It is noted and printed where it did not."""
    counts["judged"] += 1
    if wanted != found:
        counts["otherwise"] += 1
        print(f"UNEXPECTED {name}: {found}, not {wanted}", flush=True)
    return wanted == found


def write(name, text):
    with open(name, "w") as file:
        file.write(text)


def write_apart(name, make, n):
    """Writes a file in a process of its own, whose memory would else count as that of the runs that come after it."""
    child = os.fork()
    if child == 0:
        write(name, make(n))
        os._exit(0)
    _, ended = os.waitpid(child, 0)
    judge(f"a file of {n}", 0, ended)


# ---- texts


def features(each):
    return '{"type":"FeatureCollection","features":[%s]}' % ",".join(each)


def feature(geometry, properties="null", more=""):
    return '{"type":"Feature",%s"properties":%s,"geometry":%s}' % (more, properties, geometry)


def geometry(kind, coordinates):
    return '{"type":"%s","coordinates":%s}' % (kind, coordinates)


def topology(objects, arcs, bounds=""):
    return '{"type":"Topology",%s"objects":{%s},"arcs":[%s]}' % (bounds, objects, arcs)


def listed(each):
    return "[%s]" % ",".join(each)


# ---- how deep files nest


def arrays(n):
    return "[" * n + "]" * n


def objects(n):
    return '{"a":' * n + "0" + "}" * n


def collections(n):
    return '{"type":"GeometryCollection","geometries":[' * n + "]}" * n


# A name, how often it nests at most, what makes it, and the fault of the deepest, if it has one.
LAYERS = (
    ("arrays as a layer", 127, arrays, "G1 NotObject"),
    ("objects as a layer", 127, objects, "G3 Missing"),
    ("arrays in properties", 125, lambda n: feature("null", '{"p":%s}' % arrays(n)), None),
    ("objects in properties", 126, lambda n: feature("null", objects(n)), None),
    ("GeometryCollections", 63, collections, None),
    ("GeometryCollections in a Feature", 63, lambda n: feature(collections(n)), None),
    ("arrays as coordinates", 126, lambda n: geometry("Point", arrays(n)), "G6 ShortPosition feature 0"),
    ("arrays in a foreign member", 126, lambda n: '{"type":"Feature","x":%s}' % arrays(n), None),
    ("arrays in properties of features", 123, lambda n: features([feature("null", '{"p":%s}' % arrays(n))]), None),
    ("objects in properties of features", 124, lambda n: features([feature("null", objects(n))]), None),
    ("GeometryCollections in features", 62, lambda n: features([feature(collections(n))]), None),
    ("arrays as coordinates of features", 123, lambda n: features([feature(geometry("Point", arrays(n)))]), "G6 ShortPosition feature 0"),
    ("arrays in a foreign member of features", 124, lambda n: features([feature("null", "null", '"x":%s,' % arrays(n))]), None),
)
TOPOLOGIES = (
    ("arrays as a topology", 255, arrays, "P1 NotTopology"),
    ("objects as a topology", 255, objects, "P2 Missing"),
    ("arrays in properties", 251, lambda n: topology('"a":{"type":null,"properties":{"p":%s}}' % arrays(n), ""), None),
    ("objects in properties", 252, lambda n: topology('"a":{"type":null,"properties":%s}' % objects(n), ""), None),
    ("GeometryCollections", 126, lambda n: topology('"a":%s' % collections(n), ""), None),
    ("arrays as arcs", 254, lambda n: topology("", arrays(n - 1)), "P4 WrongKind"),
    ("arrays as arc indexes", 252, lambda n: topology('"a":{"type":"MultiPolygon","arcs":%s}' % arrays(n), ""), "P4 WrongKind"),
    ("arrays as a transform", 254, lambda n: '{"type":"Topology","transform":%s,"objects":{},"arcs":[]}' % arrays(n), "P4 WrongKind"),
    ("arrays in a foreign member", 254, lambda n: '{"type":"Topology","objects":{},"arcs":[],"x":%s}' % arrays(n), None),
)


def small_stack():
    resource.setrlimit(resource.RLIMIT_STACK, (1 << 18, 1 << 18))


def ended(words):
    """The status of a run with a stack of 256 KiB, and the line of its fault, if it has one."""
    run = subprocess.run([PROGRAM, *words], capture_output=True, preexec_fn=small_stack, timeout=120)
    return run.returncode, run.stderr.decode().strip() if run.returncode else None


def try_depths():
    for name, most, make, fault in LAYERS:
        line = None if fault is None else f"error: layer 0 {fault}"
        write("deepest", make(most))
        expect(f"{most} {name}, build", (0 if fault is None else 1, line), ended(["build", "a=deepest"]))
        write("deeper", make(most + 1))
        expect(f"{most + 1} {name}, build", (1, "error: layer 0 J2 Malformed"), ended(["build", "a=deeper"]))
    for name, most, make, fault in TOPOLOGIES:
        line = None if fault is None else f"error: {fault}"
        write("deepest", make(most))
        write("deeper", make(most + 1))
        for words in (["stat"], ["simplify"], ["geo", "--object", "a"]):
            wanted = (0 if fault is None else 1, line)
            if words[0] == "geo" and "foreign" in name:
                wanted = (1, "error: E4 NoObject")
            expect(f"{most} {name}, {words[0]}", wanted, ended([*words, "deepest"]))
            expect(f"{most + 1} {name}, {words[0]}", (1, "error: J2 Malformed"), ended([*words, "deeper"]))


# ---- streams


def shell(script):
    """Runs a script in which P is the program, and gives what it wrote to standard output, without its last newline."""
    run = subprocess.run(["sh", "-c", script], env={**os.environ, "P": PROGRAM}, capture_output=True, timeout=300)
    return run.stdout.decode(errors="replace").strip()


def fault_of(words, redirected=""):
    """The status and the line of a run with these words."""
    return shell(f'"$P" {words} {redirected} 2>err; s=$?; cat err; echo "status $s"').replace("\n", ", ")


LINE = geometry("LineString", "[[0,0],[1.5,0.25]]")
LINE_TOPOLOGY = topology(
    '"a":{"type":"GeometryCollection","geometries":[{"type":"LineString","arcs":[0]}]}',
    "[[0,0],[1.5,0.25]]",
    '"bbox":[0,0,1.5,0.25],',
)
REPORT = "rounded 0, extra 0, empty 0, dropped 0, arcs 1, kept 2, removed 0"
COMMANDS = ("build a=line", "simplify line.topojson", "geo --object a line.topojson", "stat line.topojson")


def try_outputs():
    """Standard output and standard error that take little or nothing."""
    many = features(feature(geometry("Point", f"[{i},1]")) for i in range(20000))
    write("many", many)
    shell('"$P" build a=many >many.topojson')
    # What the system took isn't known to the program, whose buffer has 64 KiB: so the count is left out.
    write("names.topojson", topology(named_objects(20000), ""))
    streams = (("build a=many", "B6"), ("simplify many.topojson", "E5"), ("geo --object a many.topojson", "E5"), ("stat names.topojson", "E5"))
    for words, code in streams:
        found = shell(f'("$P" {words} 2>err; echo "status $?" >>err) | head -c 100 >/dev/null; sed "s/sent .*/sent/" err')
        expect(f"{words} | head -c 100", f"error: {code} Write sent\nstatus 3", found)
    for words in (*COMMANDS, "--help"):
        code = "B6" if words.startswith(("build", "--")) else "E5"
        for redirected in (">/dev/full", ">&-"):
            found = fault_of(words, redirected)
            expect(f"{words} {redirected}", f"error: {code} Write", found.split(" sent")[0])
            expect(f"{words} {redirected}", "status 3", found.split(", ")[-1])
    for redirected in ("2>&-", "2>/dev/full"):
        for words, status, size in (("build a=line", 0, len(LINE_TOPOLOGY)), ("stat missing", 3, 0), ("no-command", 2, 0)):
            found = shell(f'"$P" {words} {redirected} >out; echo "status $?"; wc -c <out')
            expect(f"{words} {redirected}", f"status {status}\n{size}", found)
    expect("all streams closed", "status 3", shell('("$P" build a=line <&- >&- 2>&-); echo "status $?"'))


def try_inputs():
    """What is no plain file, can't be read or has no end."""
    os.mkdir("folder")
    write("closed", LINE)
    os.chmod("closed", 0)
    os.chmod(".", 0o755)
    for words in ("build a=folder", "build a=line b=folder", "simplify folder", "geo --object a folder", "stat folder"):
        layer = {"build a=folder": "layer 0 ", "build a=line b=folder": "layer 1 "}.get(words, "")
        expect(words, f"error: {layer}F1 Read, status 3", fault_of(words))
    # (who is root reads every file, and nobody else may come to where the program is)
    shutil.copy(PROGRAM, "copy")
    nobody = "setpriv --reuid=65534 --regid=65534 --clear-groups " if os.geteuid() == 0 else ""
    found = shell(f'{nobody}./copy stat closed 2>&1; echo "status $?"')
    expect("a file that can't be read", "error: F1 Read\nstatus 3", found)
    expect("a path of 5000 bytes", "error: F1 Read, status 3", fault_of("stat " + "x" * 5000))
    expect("a word that isn't UTF-8", "error: a word is not UTF-8, status 2", fault_of("stat \"$(printf '\\377')\""))
    expect("a file with no end", "error: F2 TooLong, status 1", fault_of("stat /dev/zero"))
    expect("a layer with no end", "error: layer 0 F2 TooLong, status 1", fault_of("build a=/dev/zero"))
    try_long_file()
    expect("an empty device", "error: J2 Malformed, status 1", fault_of("stat /dev/null"))
    os.mkfifo("pipe")
    for name, parts, wanted in (
        ("a named pipe", (LINE,), f"{LINE_TOPOLOGY}{REPORT}, status 0"),
        ("a named pipe, bit by bit", [LINE[i : i + 9] for i in range(0, len(LINE), 9)], f"{LINE_TOPOLOGY}{REPORT}, status 0"),
        ("a named pipe that closes early", (LINE[:20],), "error: layer 0 J2 Malformed, status 1"),
    ):
        feeder = threading.Thread(target=feed, args=(parts,))
        feeder.start()
        expect(name, wanted, fault_of("build a=pipe"))
        feeder.join()
    try_sockets()
    for word in "\x1b[31m", "\x9b2J", "a\u202eb", "\x7f":
        run = subprocess.run([PROGRAM, word, f"--{word}"], capture_output=True, timeout=120)
        shown = "".join(f"\\u{ord(letter):04x}" if ord(letter) in OBEYED else letter for letter in word)
        expect(f"a word that a terminal obeys, {shown}", (2, True, False), (run.returncode, shown in run.stderr.decode(), word in run.stderr.decode()))
        write("named", topology(json.dumps(word, ensure_ascii=word == "\x1b[31m") + ':{"type":"LineString","arcs":[0]}', segment(0)))
        run = subprocess.run([PROGRAM, "geo", "--explain", "--object", "no", "named"], capture_output=True, timeout=120)
        expect(f"a name that a terminal obeys, {shown}", (1, True, False), (run.returncode, shown in run.stderr.decode(), word in run.stderr.decode()))


def try_long_file():
    """A file that says that it has more bytes than are taken is refused before it is read: there is no memory for a hundredth of it."""
    with open("long", "wb") as long:
        long.truncate(10**9 + 1)
    write("cut-off", LINE[:20])
    for words, wanted in (
        ("stat long", "error: F2 TooLong, status 1"),
        ("simplify long", "error: F2 TooLong, status 1"),
        ("build a=line b=long", "error: layer 1 F2 TooLong, status 1"),
        ("build a=cut-off b=long", "error: layer 0 J2 Malformed, status 1"),
    ):
        ended = shell(f'(ulimit -v 40000; "$P" {words} 2>err); s=$?; cat err; echo "status $s"').replace("\n", ", ")
        expect(f"{words}, of 10^9 bytes and one", wanted, ended)
    os.remove("long")


# What a terminal obeys of the words above.
OBEYED = {0x1B, 0x7F, 0x9B, 0x202E}


def try_sockets():
    """Standard input that is a socket, as programs of node have it: no path can open it."""
    for name, words, text, wanted in (
        ("a layer", ["build", "-q", "a=/dev/stdin"], LINE, (0, LINE_TOPOLOGY, "")),
        ("a topology", ["simplify", "-q", "/dev/stdin"], LINE_TOPOLOGY, (0, LINE_TOPOLOGY, "")),
        ("a refused layer", ["build", "a=/dev/stdin"], LINE[:20], (1, "", "error: layer 0 J2 Malformed\n")),
    ):
        here, there = socket.socketpair()
        with here, there, tempfile.TemporaryFile() as err:
            run = subprocess.Popen([PROGRAM, *words], stdin=there, stdout=subprocess.PIPE, stderr=err)
            here.sendall(text.encode())
            here.shutdown(socket.SHUT_WR)
            out = run.communicate(timeout=120)[0]
            err.seek(0)
            expect(f"{name} by a socket", wanted, (run.returncode, out.decode(), err.read().decode()))


def feed(parts):
    """Writes the parts to the named pipe, one after another."""
    with open("pipe", "w") as pipe:
        for part in parts:
            pipe.write(part)
            pipe.flush()
            time.sleep(0.05)


# ---- large files


def point(i):
    return geometry("Point", f"[{i % 1000},{i // 1000}]")


def segment(i):
    return f"[[{i % 1000},{i // 1000}],[{i % 1000}.5,{i // 1000}]]"


def small_ring(i):
    x, y = i % 1000, i // 1000
    return f"[[{x},{y}],[{x}.5,{y}],[{x},{y}.5],[{x},{y}]]"


def spiral(n):
    steps = ((1, 0), (0, 1), (-1, 0), (0, -1))
    return listed(f"[{steps[i % 4][0] * (i // 4 + 1)},{steps[i % 4][1] * (i // 4 + 1)}]" for i in range(n))


def line(coordinates):
    return feature(geometry("LineString", coordinates))


def lines_of(coordinates):
    return features(line(it) for it in coordinates)


BUILD, STAT, GEO, SIMPLIFY = "build a=file", "stat file", "geo --object a file", "simplify --min-area 1 file"
UNCROSSED = "simplify --no-crossings --min-area 1000000000000 file"
MILLION = 10**6
OPEN_FILES = min(10**5, resource.getrlimit(resource.RLIMIT_NOFILE)[1] - 100)

# A name, the size, what makes it, the words, and the status that isn't 0.
FILES = (
    ("features", MILLION, lambda n: features(feature(point(i)) for i in range(n)), BUILD, 0),
    ("lines, each an arc", MILLION, lambda n: lines_of(segment(i) for i in range(n)), BUILD, 0),
    ("the same on a grid", MILLION, lambda n: lines_of(segment(i) for i in range(n)), "build --grid 1000000000 a=file", 0),
    ("arcs that no line uses", MILLION, lambda n: topology("", ",".join(map(segment, range(n)))), STAT, 0),
    ("the same, simplified", MILLION, lambda n: topology("", ",".join(map(segment, range(n)))), SIMPLIFY, 0),
    ("lines along an arc each", MILLION, lambda n: along(n), GEO, 0),
    ("the same, simplified", MILLION, lambda n: along(n), SIMPLIFY, 0),
    ("a line along one arc, often", MILLION, lambda n: often(n), GEO, 0),
    ("the same, simplified", MILLION, lambda n: often(n), SIMPLIFY, 0),
    ("an arc of equal positions, often", MILLION // 10, lambda n: one_place(f"[{listed('0' * n)}]", n), "simplify file", 0),
    ("lines along an arc of equal positions", MILLION // 10, lambda n: one_place(listed(["[0]"] * n), n), "simplify file", 0),
    ("lines in collections that are dropped", MILLION // 10, lambda n: dropped_inside(n), "simplify -q file", 0),
    ("a line that is long when it is decoded, refused", MILLION // 100, lambda n: unfolding(n), "geo --object a --max-positions 1000 file", 1),
    ("objects of a topology", MILLION, lambda n: topology(named_objects(n), ""), STAT, 0),
    ("members of a topology, of one name", MILLION, lambda n: "{%s}" % ",".join(['"arcs":[]'] * n), STAT, 1),
    ("foreign members of a topology", MILLION, lambda n: '{%s"type":"Topology","objects":{},"arcs":[]}' % foreign(n), STAT, 0),
    ("an arc index's digits", 10 * MILLION, lambda n: topology('"a":{"type":"LineString","arcs":[0.%s]}' % ("0" * n), segment(0)), GEO, 0),
    ("a cell's digits", 10 * MILLION, lambda n: gridded("1", f"{'7' * n}e-{n}"), STAT, 1),
    ("a scale's decimals", 10 * MILLION, lambda n: gridded("0." + "7" * n, "1"), SIMPLIFY, 0),
    ("a member's name, bytes", 50 * MILLION, lambda n: feature("null", '{"%s":1}' % ("x" * n)), BUILD, 0),
    ("a member's name, escapes", 5 * MILLION, lambda n: feature("null", '{"%s":1}' % ("\\u0041" * n)), BUILD, 0),
    ("a property's digits", 10 * MILLION, lambda n: feature("null", '{"a":%s}' % ("7" * n)), BUILD, 0),
    ("a coordinate's decimals", 10 * MILLION, lambda n: geometry("Point", f"[0.{'7' * n},0]"), BUILD, 0),
    ("a coordinate's digits", 10 * MILLION, lambda n: geometry("Point", f"[1{'0' * n},0]"), BUILD, 1),
    ("an exponent's digits", 10 * MILLION, lambda n: geometry("Point", f"[0e{'7' * n},0]"), BUILD, 0),
    ("the same, in a feature", 10 * MILLION, lambda n: features([feature(geometry("Point", f"[0e{'7' * n},0]"))]), BUILD, 0),
    ("decimals in a feature", 10 * MILLION, lambda n: features([feature(geometry("Point", f"[0.{'7' * n},0]"))]), BUILD, 0),
    ("members of a feature, of one name", MILLION, lambda n: features([feature("null", "null", '"id":1,' * n)]), BUILD, 1),
    ("elements of a position", MILLION, lambda n: features([feature(geometry("Point", listed(["1"] * n)))]), BUILD, 0),
    ("properties of one name", MILLION, lambda n: feature("null", "{%s}" % ",".join(['"a":1'] * n)), BUILD, 0),
    ("members of one name", MILLION, lambda n: "{%s}" % ",".join(['"type":"Point"'] * n), BUILD, 1),
    ("foreign members", MILLION, lambda n: feature("null", "null", foreign(n)), BUILD, 0),
    ("holes of a polygon", MILLION, lambda n: holes(n), BUILD, 0),
    ("empty polygons", MILLION, lambda n: feature(geometry("MultiPolygon", listed(["[[]]"] * n))), BUILD, 0),
    ("lines that collapse", MILLION, lambda n: lines_of(["[[1,1],[1,1]]"] * n), BUILD, 0),
    ("rings that get small", MILLION // 4, lambda n: feature(geometry("Polygon", listed(map(small_ring, range(n))))), BUILD + " --min-area 1", 0),
    ("rings that enclose little", MILLION // 4, lambda n: feature(geometry("Polygon", listed(map(small_ring, range(n))))), BUILD + " --min-ring-area 1", 0),
    ("members of a collection", MILLION, lambda n: feature('{"type":"GeometryCollection","geometries":%s}' % listed(map(point, range(n)))), BUILD, 0),
    ("a ring that winds", MILLION // 4, lambda n: feature(geometry("Polygon", "[[[0,0],%s]]" % ",".join(["[1,0],[0,1],[0,0]"] * n))), BUILD, 0),
    ("the same, with a least area", MILLION // 4, lambda n: feature(geometry("Polygon", "[[[0,0],%s]]" % ",".join(["[1,0],[0,1],[0,0]"] * n))), BUILD + " --min-ring-area 1", 0),
    ("a segment back and forth", MILLION, lambda n: line(listed(["[0,0],[1,0]"] * n)), BUILD, 0),
    ("lines through one position", MILLION, lambda n: lines_of(f"[[0,0],[{i % 1000 + 1},{i // 1000}]]" for i in range(n)), BUILD, 0),
    ("one position, often", MILLION, lambda n: line("[[0,0],%s]" % ",".join(["[1,1]"] * n)), BUILD, 0),
    ("a zigzag that goes", MILLION, lambda n: line(listed(f"[{i},{i % 2}]" for i in range(n))), BUILD + " --min-area 1000", 0),
    ("a spiral that goes", MILLION, lambda n: line(spiral(n)), BUILD + " --min-area 1000000000000", 0),
    ("lines from one position", MILLION // 10, lambda n: topology("", star(n)), UNCROSSED, 0),
    ("spikes over one base", MILLION // 10, lambda n: topology("", ",".join(f"[[0,0],[{n},{i + 1}],[{2 * n},0]]" for i in range(n))), UNCROSSED, 0),
    ("equal positions in a row", MILLION // 10, lambda n: topology("", "[[0,0],%s,[9,0]]" % ",".join(["[5,5]"] * n)), UNCROSSED, 0),
    ("equal roofs", MILLION // 10, lambda n: topology("", ",".join(["[[0,0],[5,5],[10,0]]"] * n)), UNCROSSED, 0),
    ("slanting slivers", MILLION // 10, lambda n: topology("", slivers(n)), UNCROSSED, 0),
    ("a comb", MILLION // 10, lambda n: topology("", listed(f"[{i // 2},{(i + 1) // 2 % 2 * 1000}]" for i in range(n))), UNCROSSED, 0),
    ("positions on one line", MILLION // 10, lambda n: topology("", listed(f"[{i},{3 * i}]" for i in range(n))), UNCROSSED, 0),
    ("arcs of one ring that stays", MILLION // 10, lambda n: one_ring(n), "simplify --keep-shapes --min-area 1000000000000 file", 0),
    ("rings along one arc", MILLION // 25, lambda n: rings_along(n), "simplify --keep-shapes --min-ring-area 1 file", 0),
    ("roofs held by an arc that goes on", MILLION // 50, lambda n: held_roofs(n), "simplify --no-crossings --min-area 5000000 file", 0),
    ("lines from one position, counted", MILLION // 10, lambda n: topology("", star(n)), "stat --crossings file", 0),
    ("lines with a short end, counted", MILLION // 10, lambda n: topology("", spokes(n, lambda i: MILLION)), "stat --crossings file", 0),
    ("the same, long and short", MILLION // 25, lambda n: topology("", spokes(n, lambda i: 1000 + i * 7919 % MILLION)), "stat --crossings file", 0),
    ("equal roofs, counted", MILLION // 10, lambda n: topology("", ",".join(["[[0,0],[5,5],[10,0]]"] * n)), "stat --crossings file", 0),
    ("white space", 50 * MILLION, lambda n: " " * n + '{"type":"FeatureCollection","features":[]}', BUILD, 0),
    ("layers", OPEN_FILES, lambda n: '{"type":"FeatureCollection","features":[]}', "build LAYERS", 0),
    ("opening brackets", 50 * MILLION, lambda n: "[" * n, BUILD, 1),
    ("zero bytes", 50 * MILLION, lambda n: "\0" * n, BUILD, 1),
    ("a text without an end", 50 * MILLION, lambda n: '"' + "a" * n, BUILD, 1),
)


def star(n):
    return ",".join(f"[[0,0],[{i + 1},{n - i}],[{2 * i + 3},{2 * (n - i)}]]" for i in range(n))


def slivers(n):
    return ",".join(f"[[0,{3 * i}],[{n},{n + 3 * i + 1}],[{2 * n},{2 * n + 3 * i}]]" for i in range(n))


def one_ring(n):
    """A polygon of arcs that each begin and end at its first position."""
    object = '"a":{"type":"Polygon","arcs":[%s]}' % listed(map(str, range(n)))
    return topology(object, ",".join(f"[[0,0],[{i + 1},1],[{i + 1},2],[0,0]]" for i in range(n)))


def rings_along(n):
    """A polygon for each position of one arc, whose ring is that arc."""
    arc = listed([f"[{i},{i * i % 7}]" for i in range(n)] + ["[0,0]"])
    return topology('"a":{"type":"MultiPolygon","arcs":%s}' % listed(["[[0]]"] * n), arc)


def held_roofs(n):
    """Roofs over one base, which is a segment of an arc whose other positions go one after another, as each is held until the one before has gone."""
    drop = [-MILLION - i * i / 1000 for i in range(n + 1)]
    arc = listed(["[1000,0]", "[0,0]"] + [f"[{-i},{drop[i]:.6f}]" for i in range(1, n + 1)])
    holders = [f"[[{-i},{drop[i] - 0.0003:.6f}],[{-i},{drop[i] - 0.0006:.6f}]]" for i in range(1, n + 1)]
    shares = [(i + 1) / (n + 1) for i in range(n)]
    roofs = [f"[[0,0],[{1000 * it:.6f},{4 * it * (1 - it):.9f}],[1000,0]]" for it in shares]
    return topology("", ",".join([arc] + holders + roofs))


def spokes(n, length):
    """Lines from one position, each of which ends in a segment of a thousandth of its length."""

    def at(reach, turn):
        return f"[{reach * math.cos(turn):.6f},{reach * math.sin(turn):.6f}]"

    ways = ((length(i), 2 * math.pi * i / n) for i in range(n))
    return ",".join(f"[[0,0],{at(reach, turn)},{at(reach * 1.001, turn)}]" for reach, turn in ways)


def named_objects(n):
    return ",".join('"o%d":{"type":null}' % i for i in range(n))


def foreign(n):
    return "".join('"m%d":0,' % i for i in range(n))


def gridded(scale, cell):
    transform = '"transform":{"scale":[%s,1],"translate":[0,0]},' % scale
    return '{"type":"Topology",%s"objects":{"a":{"type":"LineString","arcs":[0]}},"arcs":[[[0,0],[%s,0]]]}' % (transform, cell)


def along(n):
    return topology('"a":{"type":"MultiLineString","arcs":%s}' % listed(f"[{i}]" for i in range(n)), ",".join(map(segment, range(n))))


def often(n):
    return topology('"a":{"type":"LineString","arcs":%s}' % listed(["0,-1"] * n), "[[0,0],[1,0]]")


def one_place(arcs, n):
    """A MultiLineString of lines of these arcs, of which there is one, of equal positions."""
    return topology('"a":{"type":"MultiLineString","arcs":%s}' % arcs, listed(["[5,5]"] * n))


def dropped_inside(n):
    """Lines of one position in as many collections as there may be, one in the other."""
    depth = 120
    return topology('"a":' + nested(depth, '{"type":"MultiLineString","arcs":%s}' % listed(["[0]"] * n)), "[[5,5],[5,5]]")


def unfolding(n):
    """A line that goes along one arc as often as that has positions."""
    return topology('"a":{"type":"LineString","arcs":%s}' % listed(["0,-1"] * n), listed(f"[{i},0]" for i in range(n)))


def holes(n):
    rings = ",".join(map(small_ring, range(n)))
    return feature(geometry("Polygon", f"[[[-1,-1],[2000,-1],[2000,2000],[-1,-1]],{rings}]"))


# The seconds after which a run is ended.
LONGEST = 60


def run_once(words):
    """The status of a run, its seconds by the clock and of the processor, and its peak of memory in MB."""
    with open("out", "wb") as out, open("err", "wb") as err:
        start = time.perf_counter()
        child = subprocess.Popen([PROGRAM, *shlex.split(words)], stdout=out, stderr=err)
        ending = threading.Timer(LONGEST, child.kill)
        ending.start()
        _, ended, usage = os.wait4(child.pid, 0)
        ending.cancel()
        ending.join()
    child.returncode = os.waitstatus_to_exitcode(ended)
    return child.returncode, time.perf_counter() - start, usage.ru_utime + usage.ru_stime, usage.ru_maxrss / 1024


def run_file(name, n, make, words, status, times):
    """The bytes that a command reads of a file of this size, and of so many runs the least seconds and the greatest peak in MB."""
    write_apart("file", make, n)
    layers = " ".join(f"{i}=file" for i in range(n)) if "LAYERS" in words else ""
    runs = [run_once(words.replace("LAYERS", layers)) for _ in range(times)]
    for run in runs:
        judge(f"{words}, {name}, {n}", status, run[0])
    return os.path.getsize("file") * (n if layers else 1), min(run[1] for run in runs), max(run[3] for run in runs)


def try_sizes():
    if ASKED.short:
        for name, size, make, words, status in FILES:
            run_file(name, size // 100, make, words, status, 1)
        return
    print("| File | Size | MB | Command | Seconds, a tenth | Seconds | Growth | Peak MB |\n|---|---|---|---|---|---|---|---|")
    for name, size, make, words, status in FILES:
        few, little, _ = run_file(name, size // 10, make, words, status, 2)
        many, much, peak = run_file(name, size, make, words, status, 2)
        growth = (much / many) / (little / few)
        command = words.replace(" a=file", "").replace(" file", "").replace(" LAYERS", "")
        print(f"| {name} | {size} | {many / 1e6:.1f} | {command} | {little:.3f} | {much:.3f} | {growth:.2f} | {peak:.0f} |", flush=True)


# ---- collections in collections
#
# What is in them may cost little more the deeper it stands, wherever their types stand, with members after those that they are made of, and
# where the first of what is in them is faulty, so that the rest is only looked through.


def nested(depth, inside, before='"type":"GeometryCollection",', after=""):
    return f'{{{before}"geometries":[' * depth + inside + f"]{after}}}" * depth


def arc_lines(n, first=""):
    return first + ",".join('{"type":"LineString","arcs":[0]}' for _ in range(n))


def layer_lines(n):
    return ",".join(geometry("LineString", segment(i)) for i in range(n))


def nested_topology(collection):
    return topology(f'"a":{collection}', segment(0))


TYPE_LAST = ("", ',"type":"GeometryCollection"')
MEMBER_LAST = ('"type":"GeometryCollection",', ',"x":0')
NO_ARC = '{"type":"LineString","arcs":[1]},'
# A name, how deep the collections nest at most, what makes the file, the words, and the status.
NESTED = (
    ("lines of a topology", 120, lambda d, n: nested_topology(nested(d, arc_lines(n))), STAT, 0),
    ("the same, decoded", 120, lambda d, n: nested_topology(nested(d, arc_lines(n))), GEO, 0),
    ("the same, simplified", 120, lambda d, n: nested_topology(nested(d, arc_lines(n))), SIMPLIFY, 0),
    ("lines of a topology, types last", 120, lambda d, n: nested_topology(nested(d, arc_lines(n), *TYPE_LAST)), STAT, 0),
    ("lines of a topology, a member last", 120, lambda d, n: nested_topology(nested(d, arc_lines(n), *MEMBER_LAST)), STAT, 0),
    ("lines of a topology, a faulty one first", 120, lambda d, n: nested_topology(nested(d, arc_lines(n, NO_ARC))), STAT, 1),
    ("lines of a layer", 60, lambda d, n: nested(d, layer_lines(n)), BUILD, 0),
    ("lines of a layer, types last", 60, lambda d, n: nested(d, layer_lines(n), *TYPE_LAST), BUILD, 0),
    ("lines of a topology, types last, explained", 120, lambda d, n: nested_topology(nested(d, arc_lines(n), *TYPE_LAST)), SIMPLIFY + " --explain", 0),
    ("lines of a layer, types last, explained", 60, lambda d, n: nested(d, layer_lines(n), *TYPE_LAST), BUILD + " --explain", 0),
    ("lines of a layer, a member last", 60, lambda d, n: nested(d, layer_lines(n), *MEMBER_LAST), BUILD, 0),
    ("lines of a layer, a faulty one first", 60, lambda d, n: nested(d, geometry("LineString", "[[0]]") + "," + layer_lines(n)), BUILD, 1),
)
# By how much the time of a byte may grow from one collection to the deepest ones, and how many lines or points are in them.
GREATEST_DEPTH_GROWTH, FEW_NESTED, MANY_NESTED = 3, 10**4, 10**5


def time_a_byte(name, make, words, status):
    """The least seconds of the processor that a command takes for a byte of a file of three runs."""
    write_apart("file", make, FEW_NESTED if ASKED.short else MANY_NESTED)
    runs = [run_once(words) for _ in range(LEAST_RUNS)]
    for run in runs:
        judge(f"{words}, {name}", status, run[0])
    return min(run[2] for run in runs) / os.path.getsize("file")


def try_nested():
    for name, most, make, words, status in NESTED:
        flat = time_a_byte(f"1 {name}", lambda n: make(1, n), words, status)
        deep = time_a_byte(f"{most} {name}", lambda n: make(most, n), words, status)
        growth = deep / flat
        print(f"{name} in {most} collections, {words}: {deep * 1e9:.1f} ns of the processor a byte, growth {growth:.2f}")
        judge(f"{name}: whether the growth is below {GREATEST_DEPTH_GROWTH}", True, growth < GREATEST_DEPTH_GROWTH)


# ---- positions that were chosen by their hashes
#
# Two hashes are known. That of release 1.2.7 and before is the two halves of a product, joined, of the two numbers of a position, or the two
# hashes of a segment's ends, each joined with a number of its own: a table looked from the place on that its first bits name. The other is
# that of the kit's tables where no number of the run goes in first: each number that is hashed is joined with the state, which becomes the
# two halves of the product with a third number. A table of the kit keeps 32 bits of it, of which eight are a key's tag, and the last ones name
# the group of twelve where it begins to look.

WORD = 1 << 64
FIRST, SECOND = 0x9E3779B97F4A7C15, 0xD6E8FEB86659FD93
STATE, FACTOR = 0x243F6A8885A308D3, 0x9E3779B97F4A7C15 ^ 16
# The position whose hash is FIRST in release 1.2.7, so that all segments that begin there have the hash zero, and another one.
ZEROING, ORDINARY = (37007059560594453, 27551501460005417), (10**9, 2 * 10**9)


def folded(first, second):
    """The two halves of the product, joined."""
    product = first * second
    return product % WORD ^ product >> 64


def fed(state, *numbers):
    """The state of the kit's hash after these numbers."""
    for number in numbers:
        state = folded(state ^ number, FACTOR)
    return state


def close_step(factor, limit):
    """A step below the limit, so many times the factor is close to a multiple of 2^64: the denominator of a convergent."""
    before, step, high, low = 1, 0, factor, WORD
    while low:
        before, step, whole = step, high // low * step + before, step
        if step >= limit:
            return whole
        high, low = low, high % low
    return step


def alike_in_release(n):
    """Positions on one line of latitude whose hashes in release 1.2.7 begin alike."""
    step, first = close_step(SECOND, 1 << 34), FIRST >> 56 << 56
    return ((first + i * step ^ FIRST, 0) for i in range(n))


def alike_in_kit(n, state):
    """Positions that bring the kit's hash from this state to one and the same. Northings have 56 bits, so the eastings are such that the states after
    them begin with the same eight bits, and each northing is the rest of that state, which it takes away."""

    def begun(easting):
        product = (easting ^ state) * FACTOR
        return product >> 120, product % WORD >> 56

    step = close_step(FACTOR, 1 << 34)
    starts = range(state >> 56 << 56, WORD, 1 << 40)
    start = next(it for it in starts if begun(it ^ state) == begun(it + (n - 1) * step ^ state))
    for i in range(n):
        easting = start + i * step ^ state
        yield easting, fed(state, easting) % (1 << 56)


def decimals(position):
    """A position of two numbers of units of 10^-9 as JSON."""
    return listed(f"{it // 10**9}.{it % 10**9:09}" for it in position)


def line_of(positions):
    return line(listed(map(decimals, positions)))


def fan_of(start, positions):
    """A line from the start to each position."""
    return feature(geometry("MultiLineString", listed(listed([decimals(start), decimals(it)]) for it in positions)))


def on_a_grid(n):
    return ((i % 1000 * 10**9, i // 1000 * 10**9) for i in range(n))


ZERO_FIRST = fed(STATE, 0)
CHOSEN = (
    ("positions of a grid", lambda n: line_of(on_a_grid(n))),
    ("positions whose hashes begin alike, by release 1.2.7", lambda n: line_of(alike_in_release(n))),
    ("positions of one hash, by the kit with no number first", lambda n: line_of(alike_in_kit(n, STATE))),
    ("positions of one hash, by the kit with zero first", lambda n: line_of(alike_in_kit(n, ZERO_FIRST))),
    ("segments of one hash, by release 1.2.7", lambda n: fan_of(ZEROING, on_a_grid(n))),
    ("segments of one hash, by the kit with no number first", lambda n: fan_of(ORDINARY, alike_in_kit(n, fed(STATE, *ORDINARY)))),
    ("segments of one hash, by the kit with zero first", lambda n: fan_of(ORDINARY, alike_in_kit(n, fed(ZERO_FIRST, *ORDINARY)))),
)
# By how much the time of a byte may grow from the least size to the greatest, and how often a file is read at least and at most.
GREATEST_GROWTH, LEAST_RUNS, MOST_RUNS = 2, 3, 10


def have_one_hash():
    """Whether the chosen positions and segments are different ones and have one hash, or begin alike, as they are chosen to."""
    n = 10**4
    released = [folded(x ^ FIRST, y ^ SECOND) for x, y in alike_in_release(n)]
    judge("hashes of positions in release 1.2.7 begin alike", True, len({it >> 54 for it in released}) <= 2)
    judge("the hash of the start of segments in release 1.2.7", FIRST, folded(ZEROING[0] ^ FIRST, ZEROING[1] ^ SECOND))
    for state in (STATE, ZERO_FIRST):
        for start in ((), ORDINARY):
            chosen = set(alike_in_kit(n, fed(state, *start)))
            hashes = {fed(state, *start, *it) for it in chosen}
            judge("different positions, and their hashes", (n, 1), (len(chosen), len(hashes)))


def growth_of(times, sizes):
    """By how much the time of a byte grows from the first size to the last one."""
    return times[sizes[-1]] / os.path.getsize(f"file-{sizes[-1]}") / (times[sizes[0]] / os.path.getsize(f"file-{sizes[0]}"))


def time_chosen(name, sizes):
    """The least seconds of the processor that the files of these sizes take. Where they grow a little too much they are read again, a few times: on a
    machine that is busy with other things, some runs take longer."""
    times = dict.fromkeys(sizes, float("inf"))
    statuses = set()
    for number in range(MOST_RUNS):
        for n in sizes:
            status, _, seconds, _ = run_once(f"build a=file-{n}")
            times[n] = min(times[n], seconds)
            statuses.add(status)
        is_close = GREATEST_GROWTH <= growth_of(times, sizes) < 2 * GREATEST_GROWTH
        if statuses != {0} or number + 1 >= LEAST_RUNS and not is_close:
            break
    judge(f"{name}: the statuses", {0}, statuses)
    return times


def try_chosen():
    have_one_hash()
    sizes = (10**4, 10**5) if ASKED.short else (10**4, 10**5, 10**6)
    for name, make in CHOSEN:
        for n in sizes:
            write_apart(f"file-{n}", make, n)
        times = time_chosen(name, sizes)
        growth = growth_of(times, sizes)
        told = ", ".join(f"{times[n] / os.path.getsize(f'file-{n}') * 1e9:.1f}" for n in sizes)
        print(f"{name}: {told} ns of the processor a byte at {', '.join(map(str, sizes))} positions, growth {growth:.2f}", flush=True)
        judge(f"{name}: whether the growth is below {GREATEST_GROWTH}", True, growth < GREATEST_GROWTH)


# The parts, how much each judges, and how much in the short form.
PARTS = (
    (try_depths, 80, 80),
    (try_outputs, 31, 31),
    (try_inputs, 29, 29),
    (try_sizes, 384, 128),
    (try_nested, 108, 108),
    (try_chosen, 41, 34),
)


def main():
    resource.setrlimit(resource.RLIMIT_NOFILE, (OPEN_FILES + 100, OPEN_FILES + 100))
    short = 0
    with tempfile.TemporaryDirectory() as folder:
        os.chdir(folder)
        write("line", LINE)
        write("line.topojson", LINE_TOPOLOGY)
        for part, whole, small in PARTS:
            before = counts["judged"]
            part()
            judged, wanted = counts["judged"] - before, small if ASKED.short else whole
            if judged != wanted:
                short += 1
                print(f"{part.__name__}: {judged} judged, and {wanted} are to be")
        os.chdir("/")
    print(f"{counts['judged']} judged, {counts['otherwise']} ended otherwise")
    sys.exit(1 if counts["otherwise"] or short else 0)


if __name__ == "__main__":
    main()
