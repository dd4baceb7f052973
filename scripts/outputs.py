#!/usr/bin/env python3
"""Has the program write files by `--output`, and shows that FILE is replaced whole or stays as it was, and that nothing is left beside it:

    scripts/outputs.py                     the program of ./mapchain, which is proved and built first where it has to be
    scripts/outputs.py path/to/mapchain    another program with the same commands

What a run must write and say is what the same words do without the option. It prints a line for each thing that went otherwise, and
at its end how much was tried. The status is 0 where all went well, and where as much was tried as stands beside each part. The gate runs it.
It takes some ten seconds, and a few MB of disk.
"""
import contextlib
import fcntl
import functools
import os
import re
import resource
import shutil
import signal
import socket
import stat
import struct
import subprocess
import sys
import tempfile
import time

ROOT = os.path.dirname(os.path.dirname(os.path.realpath(__file__)))
PROGRAM_PATH = [f"{ROOT}/scripts/program-path.sh"]
PROGRAM = os.path.abspath(sys.argv[1]) if len(sys.argv) > 1 else subprocess.check_output(PROGRAM_PATH, text=True).rstrip("\n")
IS_ROOT = os.geteuid() == 0
counts = {"tried": 0, "otherwise": 0}


def expect(name, wanted, found):
    """Notes what was tried, and prints it where it isn't as it should be."""
    counts["tried"] += 1
    if wanted != found:
        counts["otherwise"] += 1
        print(f"{name}: {shortened(found)}, not {shortened(wanted)}", flush=True)


def shortened(value):
    text = repr(value)
    return text if len(text) <= 600 else f"{text[:600]}.."


# ---- folders

LINE = b'{"type":"LineString","coordinates":[[0,0],[1.5,0.25]]}'
LINE_TOPOLOGY = (
    b'{"type":"Topology","bbox":[0,0,1.5,0.25],"objects":{"a":{"type":"GeometryCollection","geometries":'
    b'[{"type":"LineString","arcs":[0]}]}},"arcs":[[[0,0],[1.5,0.25]]]}'
)
# Each command, with the code of its output's fault.
COMMANDS = (
    (["build", "a=line"], "B6"),
    (["simplify", "topology"], "E5"),
    (["geo", "--object", "a", "topology"], "E5"),
    (["stat", "topology"], "E5"),
)
OLD = b"the old bytes"


def write(path, what, mode=0o644):
    with open(path, "wb") as file:
        file.write(what)
    os.chmod(path, mode)


def write_many():
    """A layer and its topology of some 200 KB each, so that the program's buffers of 64 KiB fill often."""
    points = b",".join(b'{"type":"Point","coordinates":[%d,%d]}' % (i % 1000, i // 1000) for i in range(5000))
    write("many", b'{"type":"GeometryCollection","geometries":[%s]}' % points)
    write("many-topology", plain(["build", "a=many"])[1])


@contextlib.contextmanager
def new_folder():
    """Goes to a new folder with a layer, a topology and two files that are refused."""
    with tempfile.TemporaryDirectory() as folder:
        os.chdir(folder)
        write("line", LINE)
        write("topology", LINE_TOPOLOGY)
        write("no-json", b"{")
        write("no-map", b"{}")
        yield
        os.chdir("/")


def what_is(path):
    """The kind of a path, its permissions, and the bytes of a file or where a link goes."""
    mode = os.lstat(path).st_mode
    what = None
    if stat.S_ISLNK(mode):
        what = os.readlink(path)
    elif stat.S_ISREG(mode):
        with open(path, "rb") as file:
            what = file.read()
    return stat.S_IFMT(mode), stat.S_IMODE(mode), what


def held():
    """All paths in the folder and what they are."""
    paths = (os.path.join(at, name) for at, folders, files in os.walk(".") for name in folders + files)
    return {os.path.relpath(path): what_is(path) for path in paths}


# ---- runs


def plain(words):
    """The status, standard output and standard error of a run without the option."""
    run = subprocess.run([PROGRAM, *words], capture_output=True, timeout=120)
    return run.returncode, run.stdout, run.stderr


def piped(words, path):
    """The same of a run to which the bytes of this file come by a pipe."""
    with open(path, "rb") as file:
        run = subprocess.run([PROGRAM, *words], input=file.read(), capture_output=True, timeout=120)
    return run.returncode, run.stdout, run.stderr


def write_fault(code, sent):
    return f"error: {code} Write sent {sent}\n".encode()


def try_run(name, words, wanted, changed=(), **how):
    """A run that ends with this status and standard error and leaves standard output empty, with the folder as it was but for the
    files that are changed: their paths, bytes and permissions."""
    expect_end(name, wanted, held(), changed, lambda: subprocess.run([PROGRAM, *words], capture_output=True, timeout=120, **how))


def expect_end(name, wanted, before, changed, run):
    ended = run()
    status, error = wanted
    expect(name, (status, b"", error), (ended.returncode, ended.stdout, ended.stderr))
    expect_held(name, before, changed)


def expect_held(name, before, changed=()):
    """The folder is as it was, but for the files that are changed."""
    wanted = {**before, **{path: (stat.S_IFREG, mode, what) for path, what, mode in changed}}
    found = held()
    for path in sorted(wanted.keys() | found.keys()):
        expect(f"{name}: {path}", wanted.get(path), found.get(path))


def try_done(name, words, path, mode, target=None, **how):
    """A run that is done: the file of this path, or the one that it links to, has the output and these permissions."""
    status, output, error = plain(words)
    expect(f"{name}, without --output", 0, status)
    try_run(name, [*words, "--output", path], (0, error), [(target or path, output, mode)], **how)


def try_not_begun(name, path, **how):
    """A run whose output can't be begun says so by each command, and changes nothing."""
    for words, code in COMMANDS:
        try_run(f"{name}, {words[0]}", [*words, "--output", path], (3, write_fault(code, 0)), **how)


# ---- outputs that are done


def try_new_files():
    with new_folder():
        expect("the topology of a line", (0, LINE_TOPOLOGY), plain(["build", "a=line"])[:2])
        for words, _ in COMMANDS:
            _, output, error = plain(words)
            for number, option in enumerate((["-o", "{}"], ["--output", "{}"], ["--output={}"], ["-o{}"])):
                path = f"{words[0]}-{number}"
                asked = [word.format(path) for word in option]
                name = " ".join([*words, *asked])
                try_run(name, [*words, *asked], (0, error), [(path, output, 0o644)], umask=0o022)
                asked = [word.format(f"first-{path}") for word in option]
                name = " ".join([words[0], *asked, *words[1:]])
                try_run(name, [words[0], *asked, *words[1:]], (0, error), [(f"first-{path}", output, 0o644)], umask=0o022)
        try_done("a new file for its owner alone", ["build", "a=line"], "private", 0o600, umask=0o077)
        os.mkdir("below")
        try_done("a new file in another folder", ["build", "a=line"], "below/new", 0o644, umask=0o022)
        try_done("a new file by its whole path", ["build", "a=line"], os.path.abspath("whole"), 0o644, "whole", umask=0o022)
        try_done("a name with blanks, quotes and letters", ["build", "a=line"], 'b l "ä{}%s', 0o644, umask=0o022)
        try_done("a name that begins with a dot", ["build", "a=line"], ".hidden", 0o644, umask=0o022)


def try_old_files():
    with new_folder():
        for words, _ in COMMANDS:
            for mode in (0o600, 0o644, 0o755, 0o664):
                for what in (b"", OLD, OLD * 100000):
                    write("old", what, mode)
                    try_done(f"{words[0]} over a file of {len(what)} bytes", words, "old", mode, umask=0o022)
                    write("old", what, mode)
                    try_done(f"{words[0]} over a file of {len(what)} bytes, for its owner", words, "old", mode, umask=0o077)
        write("old", OLD)
        os.link("old", "second-name")
        try_done("a file with two names", ["build", "a=line"], "old", 0o644)


def try_rights():
    """Who owns the new file, and who may do what with it, is as it is just before it takes its name, or less."""
    with new_folder():
        os.mkfifo("pipe")
        for kept, set_to in ((0o755, 0o4755), (0o2755, 0o2755), (0o2755, 0o6755)):
            write("old", OLD, set_to)
            try_done(f"a file that is run as others, {set_to:o}", ["build", "a=line"], "old", kept)
        write("old", OLD, 0o664)
        with started(["build", "-q", "a=pipe", "-o", "old"], "old.0.part") as run:
            expect("the new file while a run writes", 0o600, what_is("old.0.part")[1])
            os.chmod("old", 0o600)
            expect("a run while which rights are taken away", (0, b"", b""), feed(run, LINE))
        expect("rights that were taken away", 0o600, what_is("old")[1])
        if IS_ROOT:
            try_owners()
        else:
            print("only root can give files to others, so that isn't tried")


def try_owners():
    """Who owns the new file, where others may be asked to write it."""
    os.chmod(".", 0o777)
    shutil.copy(PROGRAM, "program")
    for owner, group, mode, user, own, more, wanted in (
        # root keeps all
        (2000, 4000, 0o640, 0, 0, [], (2000, 4000, 0o640)),
        (2000, 4000, 0o2660, 0, 0, [], (2000, 4000, 0o2660)),
        # the owner keeps the group that it is a member of
        (2000, 4000, 0o660, 2000, 3000, [4000], (2000, 4000, 0o660)),
        (2000, 4000, 0o2770, 2000, 3000, [4000], (2000, 4000, 0o2770)),
        # else the group may do nothing
        (2000, 4000, 0o660, 2000, 3000, [], (2000, 3000, 0o600)),
        (2000, 4000, 0o2675, 2000, 3000, [], (2000, 3000, 0o605)),
        # and so where the owner can't be kept
        (2000, 4000, 0o664, 2001, 4000, [], (2001, 4000, 0o604)),
        (2000, 4000, 0o660, 2001, 3000, [4000], (2001, 4000, 0o600)),
    ):
        write("old", OLD)
        os.chown("old", owner, group)
        os.chmod("old", mode)
        for option in "-o", "--report":
            how = {"user": user, "group": own, "extra_groups": more, "umask": 0o022}
            ended = subprocess.run(["./program", "build", "-q", option, "old", "a=line"], capture_output=True, timeout=120, **how)
            expect(f"{option} over {owner}:{group} {mode:o} by {user}:{own}", (0, b""), (ended.returncode, ended.stderr))
            found = os.lstat("old")
            expect(f"what {option} over {owner}:{group} {mode:o} by {user}:{own} left", wanted, (found.st_uid, found.st_gid, stat.S_IMODE(found.st_mode)))
            os.chown("old", owner, group)
            os.chmod("old", mode)
    os.unlink("program")


# The names under which the system keeps the access control lists of a file, and of a folder for new files.
ACCESS, DEFAULT = "system.posix_acl_access", "system.posix_acl_default"


def access_list(*entries):
    """An access control list as the system keeps it, of what each may do: owner, another user, group, mask, others."""
    return struct.pack("<I", 2) + b"".join(struct.pack("<HHI", *entry) for entry in entries)


NOBODY = 2**32 - 1
SHARED = access_list((1, 6, NOBODY), (2, 6, 2500), (4, 0, NOBODY), (16, 6, NOBODY), (32, 0, NOBODY))


@functools.cache
def can_list_access():
    """Whether files have access control lists here."""
    with tempfile.NamedTemporaryFile() as file:
        try:
            os.setxattr(file.name, ACCESS, SHARED)
            return True
        except OSError:
            print("files have no access control lists here, and these aren't tried")
            return False


def try_access_lists():
    """What becomes of an access control list: a new file has that of its folder, if there is one, and else none; what standard output goes to keeps its own."""
    if not can_list_access():
        return
    for path, redirected, folders, wanted in (("old", "", None, []), ("old", "", SHARED, [ACCESS]), ("-", ">old", None, [ACCESS])):
        with new_folder():
            write("old", OLD)
            os.setxattr("old", ACCESS, SHARED)
            if folders is not None:
                os.setxattr(".", DEFAULT, folders)
            run = subprocess.run(["sh", "-c", f'"$0" build -q a=line -o {path} {redirected}', PROGRAM], capture_output=True, timeout=120)
            name = f"-o {path} {redirected} with an access control list, {len(folders or b'')} bytes of its folder's"
            expect(name, (0, b"", b""), (run.returncode, run.stdout, run.stderr))
            expect(f"{name}: what is left", (wanted, 0o660, LINE_TOPOLOGY), (os.listxattr("old"), *what_is("old")[1:]))
            if wanted:
                expect(f"{name}: the list", SHARED, os.getxattr("old", ACCESS))


def try_links():
    with new_folder():
        os.makedirs("below/deeper")
        write("below/target", OLD, 0o640)
        for path, goes_to in (
            ("link", "below/target"),
            ("whole", os.path.abspath("below/target")),
            ("link-to-link", "link"),
            ("below/deeper/up", "../target"),
        ):
            os.symlink(goes_to, path)
            write("below/target", OLD, 0o640)
            try_done(f"a link to {goes_to}", ["build", "a=line"], path, 0o640, "below/target")
        os.symlink("below", "folder-link")
        try_done("a file behind a link to a folder", ["build", "a=line"], "folder-link/target", 0o640, "below/target")
        os.symlink("line", "line-link")
        try_done("an input's link as its output", ["build", "a=line"], "line-link", 0o644, "line")
        for path, goes_to in (("to-nothing", "nothing"), ("round", "round"), ("to-folder", "below")):
            os.symlink(goes_to, path)
            try_not_begun(f"a link to {goes_to}", path)


def try_own_inputs():
    with new_folder():
        write_many()
        for words, own in (
            (["build", "a=line"], "line"),
            (["build", "a=line", "b=line", "c=many"], "line"),
            (["build", "a=many"], "many"),
            (["simplify", "many-topology"], "many-topology"),
            (["geo", "--object", "a", "many-topology"], "many-topology"),
            (["stat", "many-topology"], "many-topology"),
        ):
            before = what_is(own)
            try_done(f"{' '.join(words)} as its own output", words, own, 0o644)
            write(own, before[2])


# ---- outputs that can't be begun


def try_what_is_no_file():
    with new_folder():
        os.mkdir("below")
        with socket.socket(socket.AF_UNIX) as listening:
            listening.bind("socket")
        try_not_begun("a folder that isn't there", "missing/new")
        for path in (".", "..", "below", "below/", "below/.", "socket", "line/", "line/new", "missing/", "", "x" * 256, "x" * 5000):
            try_not_begun(f"{path[:20]!r} as output", path)


def try_written(name, path, wanted):
    """What is no file to be replaced takes the output itself of each command, and is what it was; and it is a pipe, which must give this."""
    for words, _ in COMMANDS:
        _, output, error = plain(words)
        before = held()
        with subprocess.Popen(["cat", path] if wanted else ["true"], stdout=subprocess.PIPE) as reader:
            ended = subprocess.run([PROGRAM, *words, "--output", path], capture_output=True, timeout=120)
            expect(f"{name}, {words[0]}", (0, b"", error), (ended.returncode, ended.stdout, ended.stderr))
            expect(f"what {name} took of {words[0]}", output if wanted else b"", reader.communicate(timeout=120)[0])
        expect_held(f"{name}, {words[0]}", before)


def try_devices():
    """Devices, pipes and links to them are written themselves, and one that is full says so."""
    with new_folder():
        try_written("a device", "/dev/null", False)
        os.symlink("/dev/null", "nowhere")
        try_written("a link to a device", "nowhere", False)
        os.mkfifo("pipe")
        try_written("a pipe", "pipe", True)
        os.symlink("pipe", "to-pipe")
        try_written("a link to a pipe", "to-pipe", True)
        for words, code in COMMANDS:
            output = plain(words)[1]
            try_run(f"a full device, {words[0]}", [*words, "-o", "/dev/full"], (3, write_fault(code, len(output))))
        said = write_fault("B6", len(LINE_TOPOLOGY)) + b"  /dev/full: the disk is full\n"
        try_run("a full device in words", ["build", "--explain", "a=line", "-o", "/dev/full"], (3, said))
        if not IS_ROOT:
            os.mkdir("below", 0o555)
            try_not_begun("a folder that can't be written", "below/new")


def try_standard_streams():
    """An output whose path is a link to the file that a standard stream goes to is put where the stream is, and nothing in that file is lost."""
    with new_folder():
        write("own", OLD)
        for words, _ in COMMANDS:
            _, output, error = plain(words)
            reported = subprocess.run([PROGRAM, *words, "--report", "report"], capture_output=True, timeout=120)
            with open("report", "rb") as file:
                report = file.read()
            expect(f"{words[0]} with a report", (0, output, error), (reported.returncode, reported.stdout, reported.stderr))
            for name, script, wanted in (
                ("-o, behind other lines", '(echo head; "$0" "$@" -o /dev/stdout; echo "$?") > own 2> /dev/null', b"head\n" + output + b"0\n"),
                ("-o, after what was there", '"$0" "$@" -o /dev/stdout >> own 2> /dev/null', OLD + output),
                ("-o, by the descriptor", '"$0" "$@" -o /dev/fd/1 > own 2> /dev/null', output),
                ("-o -", '"$0" "$@" -o - > own 2> /dev/null', output),
                ("-o -, after what was there", '"$0" "$@" -o - >> own 2> /dev/null', OLD + output),
                ("-o -, by a pipe", '"$0" "$@" -o - 2> /dev/null | cat > own', output),
                ("-o - --report -", '"$0" "$@" -o - --report - > own 2> /dev/null', output + report),
                ("--report", '"$0" "$@" --report /dev/stdout > own 2> /dev/null', output + report),
                ("--report, standard error", '("$0" "$@" --report /dev/stderr; echo "$?" >&2) 2> own > /dev/null', error + report + b"0\n"),
            ):
                write("own", OLD)
                before = held()
                ended = subprocess.run(["sh", "-c", script, PROGRAM, *words], capture_output=True, timeout=120)
                expect(f"{words[0]}, {name}", (0, b"", b""), (ended.returncode, ended.stdout, ended.stderr))
                expect_held(f"{words[0]}, {name}", before, [("own", wanted, 0o644)])


def try_words():
    """What `--explain` says of an output that isn't written."""
    with new_folder():
        os.mkdir("below")
        for path, words in (
            ("missing/new", "its folder is not there, or it is a link that leads nowhere"),
            ("line/new", "its folder is not there, or it is a link that leads nowhere"),
            ("below", "a folder, not a file"),
            ("x" * 256, "no file can have this name"),
        ):
            said = write_fault("B6", 0) + f"  {path}: {words}\n".encode()
            try_run(f"{path[:20]} in words", ["build", "--explain", "a=line", "-o", path], (3, said))


ISLANDS = (
    b'{"type":"FeatureCollection","features":['
    b'{"type":"Feature","id":7,"properties":{"name":"Sark"},"geometry":{"type":"Polygon","coordinates":[[[20,0],[21,0],[21,1],[20,0]]]}},'
    b'{"type":"Feature","bbox":[0,0,9,9],"properties":null,"geometry":{"type":"Polygon","coordinates":[[[0,0],[9,0],[9,9],[0,0]]]}}]}'
)


def try_losses():
    """What `--explain` and `--report` say of features that are lost, also through a pipe and where the output replaces the input: the same."""
    lost = b'feature 0, id 7, name "Sark": nothing of its geometry is left\n'
    explanations = {
        "build": b'  layer 0, ' + lost + b'  layer 0: "bbox" 1 left out\n',
        "simplify": b'  object "a", ' + lost,
    }
    with new_folder():
        write("islands", ISLANDS)
        write("whole", plain(["build", "a=islands"])[1])
        for command, source in (("build", "islands"), ("simplify", "whole")):
            words = [command, "--explain", "--report", "run.json", "--min-ring-area", "2"]
            named = "a=%s" if command == "build" else "%s"
            status, output, said = plain([*words, named % source])
            with open("run.json", "rb") as file:
                report = file.read()
            expect(f"losses of {command}", (0, True), (status, said.endswith(explanations[command])))
            expect(f"losses of {command} through a pipe", (status, output, said), piped([*words, named % "/dev/stdin"], source))
            with open("run.json", "rb") as file:
                expect(f"the report of {command} through a pipe", report, file.read())
            changed = [(source, output, 0o644)]
            try_run(f"losses of {command} onto its input", [*words, "-o", source, named % source], (0, said), changed)
            with open("run.json", "rb") as file:
                expect(f"the report of {command} onto its input", report, file.read())


def try_piped_faults():
    """What `--explain` and `--report` say of what came by a pipe and is refused: what they say of a file with these bytes."""
    with new_folder():
        for command in (["build"], ["simplify"], ["geo", "--object", "b"], ["stat"], ["stat", "--crossings"]):
            named = "a=%s" if command == ["build"] else "%s"
            for path in ("no-json", "no-map"):
                try_piped_fault([*command, "--explain", "--report", "run.json", named], path)
        try_piped_fault(["build", "--explain", "--report", "run.json", "a=line", "b=%s"], "topology")
        try_piped_fault(["geo", "--explain", "--report", "run.json", "--object", "b", "%s"], "topology")


def try_piped_fault(words, path):
    """The same of these words, of which the last has a place for this file, or for the pipe. More is said than which file it is."""
    status, _, said = plain([*words[:-1], words[-1] % path])
    with open("run.json", "rb") as file:
        report = file.read()
    name = f"{' '.join(words)} of {path}"
    expect(name, (1, True), (status, said.count(b"\n") > 2))
    ended = piped([*words[:-1], words[-1] % "/dev/stdin"], path)
    expect(f"{name} through a pipe", (status, b"", said), (*ended[:2], ended[2].replace(b"/dev/stdin", path.encode())))
    with open("run.json", "rb") as file:
        expect(f"the report of {name} through a pipe", report, file.read().replace(b"/dev/stdin", path.encode()))


def try_standard_output():
    """What `--explain` says where standard output can't be written: the disk is full, nobody reads the pipe, it is closed, or it can only be
    read."""
    with new_folder():
        reader, nobody_reads = os.pipe()
        os.close(reader)
        full = os.open("/dev/full", os.O_WRONLY)
        closed = os.open("line", os.O_RDONLY)
        for stream, script, words in (
            (full, '"$0" "$@"', "the disk is full"),
            (nobody_reads, '"$0" "$@"', "the program that reads it has ended"),
            (closed, '"$0" "$@"', "closed, or open for reading alone"),
            (full, '"$0" "$@" >&-', "closed, or open for reading alone"),
        ):
            ended = subprocess.run(
                ["sh", "-c", script, PROGRAM, "build", "--explain", "a=line"], stdout=stream, stderr=subprocess.PIPE, timeout=120
            )
            said = write_fault("B6", len(LINE_TOPOLOGY)) + f"  standard output: {words}\n".encode()
            expect(f"standard output, {words}", (3, said), (ended.returncode, ended.stderr))
        for stream in nobody_reads, full, closed:
            os.close(stream)


def try_unreported():
    """What `--explain` says of a report that isn't written."""
    with new_folder():
        os.mkdir("below")
        for path, words in (
            ("missing/new", "its folder is not there, or it is a link that leads nowhere"),
            ("below", "a folder, not a file"),
            ("/dev/full", "the disk is full"),
        ):
            status, output, said = plain(["build", "--explain", "a=line"])
            ended = plain(["build", "--explain", "--report", path, "a=line"])
            said += f"error: F4 NoReport\n  {path}: {words}\n".encode()
            expect(f"no report at {path}", (3, output, said), ended)
        expect("no report, and no words", 3, plain(["build", "--report", "below", "a=line"])[0])


def try_too_many_open():
    """What `--explain` says where more files would be open than may be."""
    with new_folder():
        layers = [f"l{number}=line" for number in range(10)]

        def limit():
            resource.setrlimit(resource.RLIMIT_NOFILE, (8, 8))

        run = subprocess.run([PROGRAM, "build", "--explain", *layers], preexec_fn=limit, capture_output=True, timeout=120)
        said = b'error: layer 5 F1 Read\n  layer 5 is "l5", the file line\n  line: too many files are open: ulimit -n says how many may be\n'
        expect("too many open files", (3, b"", said), (run.returncode, run.stdout, run.stderr))


def try_parts_of_others():
    """A new file that a run has left is taken away by the next; one of a run that goes on stays, and so does what has its name and is no file."""
    with new_folder():
        write("old", OLD, 0o640)
        for mode in 0o600, 0o644:
            write("old.0.part", b"a part", mode)
            status, output, error = plain(["build", "a=line"])
            ended = plain(["build", "a=line", "-o", "old"])
            expect("over a part that was left", (status, b"", error), ended)
            expect("the part that was left", (False, output), (os.path.lexists("old.0.part"), what_is("old")[2]))
        os.mkdir("old.0.part")
        os.symlink("nothing", "old.1.part")
        os.symlink("line", "old.2.part")
        os.mkfifo("old.3.part")
        write("old.4.part", b"a part", 0o600)
        with open("old.4.part", "rb") as part:
            fcntl.flock(part, fcntl.LOCK_EX)
            try_done("parts of every kind", ["build", "a=line"], "old", 0o640)
            try_run("parts of others, and a refused file", ["build", "a=no-json", "-o", "old"], plain(["build", "a=no-json"])[::2])
        os.unlink("old.4.part")
        for number in range(4, 1000):
            os.mkdir(f"old.{number}.part")
        words = b"  old: a thousand files with the names of new ones stand beside it\n"
        try_run("1000 names", ["build", "a=line", "--explain", "-o", "old"], (3, write_fault("B6", 0) + words))


def try_long_names():
    """A name that has no room for the ending of a new file's name; what a run has left there is taken away, too."""
    with new_folder():
        os.mkdir("below")
        for length in (248, 249, 250, 255):
            for folder in ("", "below/"):
                path = f"{folder}{'n' * length}"
                try_done(f"a new file with {length} letters", ["build", "a=line"], path, 0o644, umask=0o022)
                write(path, OLD, 0o640)
                try_done(f"a file with {length} letters", ["build", "a=line"], path, 0o640)
        write("below/.mapchain.0.part", b"a part", 0o600)
        ended = plain(["build", "a=line", "-q", "-o", f"below/{'n' * 255}"])
        expect("a part that was left beside a long name", ((0, b"", b""), False), (ended, os.path.exists("below/.mapchain.0.part")))


def try_reports_elsewhere():
    """A report takes the place neither of the output nor of an input, by whichever names they go."""
    with new_folder():
        said = plain(["build", "--explain", "a=line"])[2]
        output, line = plain(["build", "a=line"])[1], what_is("line")
        no_report = "error: F4 NoReport\n  {}: {}\n"
        is_output, is_input = "it has taken the output of this run", "an input of this run"
        os.symlink("old", "link")
        os.mkdir("below")
        os.symlink("below", "folder")
        whole = os.path.abspath("old")
        for asked, report in (("old", "old"), ("old", "./old"), ("old", whole), ("link", "old"), ("old", "link"), ("below/old", "folder/old")):
            write("old", OLD)
            ended = plain(["build", "--explain", "-o", asked, "--report", report, "a=line"])
            wanted = (3, b"", said + no_report.format(report, is_output).encode())
            expect(f"a report to {report} of an output to {asked}", (wanted, output), (ended, what_is("below/old" if "/" in asked else "old")[2]))
        os.symlink("line", "line-link")
        os.link("line", "line-name")
        for report in ("line", "./line", "line-link", "line-name", os.path.abspath("line")):
            ended = plain(["build", "--explain", "--report", report, "a=line"])
            expect(f"a report to {report}, an input", (3, output, said + no_report.format(report, is_input).encode()), ended)
            expect(f"an input, where the report was to go to {report}", line, what_is("line"))
            ended = plain(["build", "--report", report, "a=line", "b=no-json"])
            expect(f"a report to {report}, an input of a refused run", (1, b"error: layer 1 J2 Malformed\nerror: F4 NoReport\n"), ended[::2])
            expect(f"an input of a refused run, where the report was to go to {report}", line, what_is("line"))
        os.unlink("line-name")
        with open("own", "wb") as own:
            ended = subprocess.run([PROGRAM, "build", "-q", "--report", "own", "a=line"], stdout=own, stderr=subprocess.PIPE, timeout=120)
        expect("a report to the file of standard output", (3, b"error: F4 NoReport\n", output), (ended.returncode, ended.stderr, what_is("own")[2]))
        try_deep_reports(output)
        if can_mount():
            os.mkdir("second")
            subprocess.run(["mount", "--bind", "below", "second"], check=True)
            for asked, report in (("below/f", "second/f"), ("second/f", "below/f")):
                ended = plain(["build", "-q", "-o", asked, "--report", report, "a=line"])
                expect(f"a report to {report} of an output to {asked}", (3, b"error: F4 NoReport\n", output), (*ended[::2], what_is("below/f")[2]))
            write("below/line", LINE)
            ended = plain(["build", "-q", "--report", "second/line", "a=below/line"])
            expect("a report to an input by a second mount", (3, b"error: F4 NoReport\n", LINE), (*ended[::2], what_is("below/line")[2]))
            subprocess.run(["umount", "second"], check=True)


def try_deep_reports(output):
    """The same in a folder whose path is longer than the system can say it."""
    top = os.getcwd()
    for _ in range(22):
        os.mkdir("d" * 200)
        os.chdir("d" * 200)
    write("line", LINE)
    ended = plain(["build", "-q", "-o", "same", "--report", "same", "a=line"])
    expect("a report to the output in a deep folder", (3, b"error: F4 NoReport\n", output), (*ended[::2], what_is("same")[2]))
    ended = plain(["build", "-q", "--report", "line", "a=line"])
    expect("a report to an input in a deep folder", (3, b"error: F4 NoReport\n", LINE), (*ended[::2], what_is("line")[2]))
    os.chdir(top)
    subprocess.run(["rm", "-rf", "d" * 200], check=True)


@functools.cache
def can_mount():
    """Whether a folder can be mounted a second time here, as only root can, and not everywhere."""
    with tempfile.TemporaryDirectory() as folder:
        mount = subprocess.run(["mount", "--bind", folder, folder], capture_output=True, check=False)
        if mount.returncode == 0:
            subprocess.run(["umount", folder], check=True)
            return True
    print("two mounts of one folder can't be had here, and aren't tried")
    return False


# ---- runs that are refused

REFUSED = (
    (2, ["no-command"]),
    (2, ["build"]),
    (2, ["build", "line"]),
    (2, ["build", "--grid", "1", "a=line"]),
    (2, ["build", "--keep", "1/2", "--min-area", "1", "a=line"]),
    (2, ["build", "--min-area", "x", "a=line"]),
    (2, ["build", "--min-ring-area", "x", "a=line"]),
    (2, ["build", "--keep", "x", "a=line"]),
    (2, ["build", "=line"]),
    (2, ["build", "a=line", "a=line"]),
    (2, ["simplify", "--min-area", "x", "topology"]),
    (2, ["simplify", "--min-ring-area", "x", "topology"]),
    (2, ["geo", "topology"]),
    (3, ["build", "a=missing"]),
    (3, ["build", "a=line", "b=missing"]),
    (3, ["build", "a=line", "b=."]),
    (3, ["simplify", "missing"]),
    (3, ["geo", "--object", "a", "missing"]),
    (3, ["stat", "missing"]),
    (1, ["build", "a=no-json"]),
    (1, ["build", "a=no-map"]),
    (1, ["build", "a=line", "b=no-json"]),
    (1, ["simplify", "no-json"]),
    (1, ["simplify", "no-map"]),
    (1, ["geo", "--object", "a", "no-json"]),
    (1, ["geo", "--object", "b", "topology"]),
    (1, ["stat", "no-map"]),
)


def try_refused():
    with new_folder():
        write("old", OLD, 0o640)
        os.symlink("old", "link")
        for wanted, words in REFUSED:
            status, _, error = plain(words)
            expect(f"{' '.join(words)}, without --output", wanted, status)
            paths = ("new", "old", "link", "line", "topology", "no-json")
            for path in paths if words != ["no-command"] else ():
                name = f"{' '.join(words)} to {path}"
                before = held()
                run = subprocess.run([PROGRAM, *words, "-o", path], capture_output=True, timeout=120)
                # Usage that clap writes may name the options that were given.
                is_usage = b"Usage:" in error
                found = b"Usage:" in run.stderr if is_usage else run.stderr
                expect(name, (status, b"", True if is_usage else error), (run.returncode, run.stdout, found))
                expect_held(name, before)
        for words in (["no-command", "-o", "old"], ["build", "a=line", "-o"], ["build", "a=line", "-o", "old", "-o", "new"]):
            before = held()
            run = subprocess.run([PROGRAM, *words], capture_output=True, timeout=120)
            expect(" ".join(words), (2, b""), (run.returncode, run.stdout))
            expect_held(" ".join(words), before)


# ---- outputs that fail on the way


def room_for(size, handler=signal.SIG_DFL):
    """Lets a process write no file beyond this size. The system ends a process that goes on, unless the signal is ignored: then the write fails,
    as it does on a full disk."""

    def limit():
        signal.signal(signal.SIGXFSZ, handler)
        resource.setrlimit(resource.RLIMIT_FSIZE, (size, size))

    return limit


def try_full_disks():
    with new_folder():
        write("old", OLD, 0o640)
        os.symlink("old", "link")
        for words, code in COMMANDS:
            _, output, error = plain(words)
            # The program's buffer has 64 KiB, so that it takes a small output whole before the disk is asked.
            fault = write_fault(code, len(output))
            for room in (0, 1, len(output) - 1):
                for path in ("new", "old", "link", words[-1].removeprefix("a=")):
                    name = f"{words[0]} to {path}, and room for {room} bytes"
                    try_run(name, [*words, "-o", path], (3, fault), preexec_fn=room_for(room))
                    try_run(f"{name}, no signal", [*words, "-o", path], (3, fault), preexec_fn=room_for(room, signal.SIG_IGN))
                with open("own", "wb") as own:
                    ended = subprocess.run([PROGRAM, *words], stdout=own, stderr=subprocess.PIPE, timeout=120, preexec_fn=room_for(room))
                expect(f"{words[0]} to standard output, and room for {room} bytes", (3, fault), (ended.returncode, ended.stderr))
                ended = subprocess.run(["sh", "-c", '"$0" "$@" 2> own', PROGRAM, *words], capture_output=True, timeout=120, preexec_fn=room_for(0))
                expect(f"{words[0]} with standard error that takes nothing", (0, output), (ended.returncode, ended.stdout))
                os.unlink("own")
            write("old", OLD, 0o640)
            name = f"{words[0]}, and room for all"
            try_run(name, [*words, "-o", "old"], (0, error), [("old", output, 0o640)], preexec_fn=room_for(len(output)))
        write("old", OLD, 0o640)
        try_large_on_full_disks()


def try_large_on_full_disks():
    write_many()
    names = b",".join(b'"o%d":{"type":null}' % i for i in range(20000))
    write("names", b'{"type":"Topology","objects":{%s},"arcs":[]}' % names)
    many = (
        (["build", "a=many"], "B6"),
        (["simplify", "many-topology"], "E5"),
        (["geo", "--object", "a", "many-topology"], "E5"),
        (["stat", "names"], "E5"),
    )
    for words, code in many:
        length = len(plain(words)[1])
        for room in (0, 1, 65536, 65537, length - 65536, length - 1):
            for path in ("new", "old", words[-1].removeprefix("a=")):
                name = f"{' '.join(words)} to {path}, and room for {room} of {length} bytes"
                before = held()
                run = subprocess.run([PROGRAM, *words, "-o", path], capture_output=True, timeout=120, preexec_fn=room_for(room))
                fault = re.fullmatch(rb"error: (..) Write sent (\d+)\n", run.stderr)
                sent = int(fault[2]) if fault else -1
                # What the disk took, and what the buffer still held.
                is_right = room <= sent <= min(room + 65536, length)
                expect(name, (3, b"", code.encode(), True), (run.returncode, run.stdout, fault and fault[1], is_right))
                expect_held(name, before)


# ---- runs that others see


def number_of(path):
    """What the system tells a file by at a time, if it is there."""
    with contextlib.suppress(FileNotFoundError):
        found = os.lstat(path)
        return found.st_ino, found.st_ctime_ns
    return None


@contextlib.contextmanager
def started(words, part):
    """A run that waits for its input, with its new file begun under this name."""
    before = number_of(part)
    run = subprocess.Popen([PROGRAM, *words], stdout=subprocess.PIPE, stderr=subprocess.PIPE)
    try:
        end = time.monotonic() + 10
        while number_of(part) in (None, before) and run.poll() is None and time.monotonic() < end:
            time.sleep(0.01)
        yield run
    finally:
        run.kill()
        run.communicate()


def feed(run, what):
    """Writes the pipe that a run reads, and gives its status, its standard output and its standard error."""
    end = time.monotonic() + 10
    while run.poll() is None and time.monotonic() < end:
        # (opened without waiting, since a run that has ended already would never read)
        with contextlib.suppress(OSError), os.fdopen(os.open("pipe", os.O_WRONLY | os.O_NONBLOCK), "wb") as pipe:
            pipe.write(what)
            break
        time.sleep(0.01)
    with contextlib.suppress(subprocess.TimeoutExpired):
        run.wait(timeout=60)
    return (run.returncode, run.stdout.read(), run.stderr.read()) if run.returncode is not None else None


def try_while_it_runs():
    words = ["build", "a=pipe", "-o"]
    with new_folder():
        report = plain(["build", "a=line"])[2]
        os.mkfifo("pipe")
        write("old", OLD, 0o640)
        before = held()
        for path, what in (("old", before["old"]), ("new", None)):
            with started([*words, path], f"{path}.0.part") as run:
                expect(f"{path} while a run writes", what, what_is(path) if os.path.lexists(path) else None)
                expect(f"the part of {path}", True, os.path.lexists(f"{path}.0.part"))
                expect(f"a run to {path} that waits", (0, b"", report), feed(run, LINE))
        expect_held("a run that waits", before, [("old", LINE_TOPOLOGY, 0o640), ("new", LINE_TOPOLOGY, 0o644)])
        before = held()
        with started([*words, "made"], "made.0.part") as run:
            with contextlib.suppress(FileExistsError):
                os.mkdir("made")
            expect("a folder made meanwhile", (3, b"", write_fault("B6", len(LINE_TOPOLOGY))), feed(run, LINE))
        with contextlib.suppress(OSError):
            os.rmdir("made")
        expect_held("a folder made meanwhile", before)


def try_killed_runs():
    """A run that is killed leaves its new file, which the next one takes away."""
    with new_folder():
        os.mkfifo("pipe")
        write("old", OLD, 0o640)
        before = held()
        for number in range(3):
            with started(["build", "a=pipe", "-o", "old"], "old.0.part"):
                pass
            expect_held(f"killed run {number}", before, [("old.0.part", b"", 0o600)])
        status, output, error = plain(["build", "a=line"])
        expect("a run behind killed ones", (status, b"", error), plain(["build", "a=line", "-o", "old"]))
        expect_held("a run behind killed ones", before, [("old", output, 0o640)])


def try_at_once():
    with new_folder():
        write("old", OLD, 0o640)
        before = held()
        report = plain(["build", "a=line"])[2]
        words = [PROGRAM, "build", "a=line", "-o", "old"]
        runs = [subprocess.Popen(words, stdout=subprocess.PIPE, stderr=subprocess.PIPE) for _ in range(20)]
        for number, run in enumerate(runs):
            output, error = run.communicate(timeout=120)
            expect(f"run {number} of twenty at once", (0, b"", report), (run.returncode, output, error))
        expect_held("twenty runs at once", before, [("old", LINE_TOPOLOGY, 0o640)])


def try_closed_streams():
    """A stream that is closed leaves its number to the next file that is opened: what was meant for it must not get there."""
    with new_folder():
        for redirected in ("<&-", ">&-", "2>&-", "<&- >&- 2>&-", ">/dev/full", "2>/dev/full"):
            for words, _ in COMMANDS:
                write("old", OLD, 0o640)
                status, output, _ = plain(words)
                before = held()
                script = f'"$0" "$@" {redirected}'
                run = subprocess.run(["sh", "-c", script, PROGRAM, *words, "-o", "old"], capture_output=True, timeout=120)
                name = f"{' '.join(words)} {redirected}"
                expect(name, (0, b""), (run.returncode, run.stdout))
                expect_held(name, before, [("old", output, 0o640)])
                write("old", OLD, 0o640)
                before = held()
                run = subprocess.run(["sh", "-c", script, PROGRAM, "build", "a=no-json", "-o", "old"], capture_output=True, timeout=120)
                expect(f"a refused file {redirected}", (1, b""), (run.returncode, run.stdout))
                expect_held(f"a refused file {redirected}", before)


# The parts, and how much each tries.
PARTS = (
    (try_new_files, 898),
    (try_old_files, 680),
    (try_rights, 59 if IS_ROOT else 27),
    (try_access_lists, 8 if can_list_access() else 0),
    (try_links, 267),
    (try_own_inputs, 48),
    (try_what_is_no_file, 364),
    (try_devices, 160 if IS_ROOT else 180),
    (try_standard_streams, 256),
    (try_words, 24),
    (try_losses, 24),
    (try_piped_faults, 36),
    (try_standard_output, 4),
    (try_unreported, 4),
    (try_too_many_open, 1),
    (try_parts_of_others, 1033),
    (try_long_names, 185),
    (try_reports_elsewhere, 32 if can_mount() else 29),
    (try_refused, 1140),
    (try_full_disks, 1444),
    (try_while_it_runs, 21),
    (try_killed_runs, 28),
    (try_at_once, 25),
    (try_closed_streams, 288),
)


def main():
    os.umask(0o022)
    short = 0
    for part, wanted in PARTS:
        before = counts["tried"]
        part()
        tried = counts["tried"] - before
        if tried != wanted:
            short += 1
            print(f"{part.__name__}: {tried} tried, and {wanted} are to be")
    print(f"{counts['tried']} tried, {counts['otherwise']} went otherwise")
    sys.exit(1 if counts["otherwise"] or short else 0)


if __name__ == "__main__":
    main()
