#!/usr/bin/env python3
"""Tries what is written for the shell: which program ./mapchain runs, what scripts/install.sh puts in place and takes away, and what the
completion of bash puts into a line:

    scripts/shell.py

Stand-ins take the places of the program and of the toolchain's command, so nothing is proved. It takes bash. It prints a line for each
thing that went otherwise, and at its end how much was tried. The status is 0 where all went well, and where as much was tried as stands beside
each part. The gate runs it, and it takes some seconds.
"""
import contextlib
import os
import shlex
import shutil
import stat
import subprocess
import sys
import tempfile
import time
from pathlib import Path

ROOT = Path(__file__).resolve().parent.parent
counts = {"tried": 0, "otherwise": 0}


def expect(name, wanted, found):
    """Notes what was tried, and prints it where it isn't as it should be."""
    counts["tried"] += 1
    if wanted != found:
        counts["otherwise"] += 1
        print(f"{name}: {found!r}, not {wanted!r}", flush=True)


@contextlib.contextmanager
def new_folder():
    with tempfile.TemporaryDirectory() as folder:
        yield Path(folder).resolve()


def write_program(path, text):
    path.parent.mkdir(parents=True, exist_ok=True)
    path.write_text(f"#!/bin/sh\n{text}\n")
    path.chmod(0o755)


# ---- the launcher

# Proves nothing, and builds a program that tells its source.
TOOLCHAIN = """case $1 in
    ci)
        echo 'rt: mapchain is kept: by a stand-in'
        mkdir -p crates/mapchain/out
        { echo '#!/bin/sh'; echo "echo built of $(cat crates/mapchain/src/main.rt)"; } >crates/mapchain/out/mapchain
        chmod 755 crates/mapchain/out/mapchain
        ;;
esac"""
NOT_OF_THESE = "mapchain: release/ has no program that was made of these very sources"
NOT_WHOLE = "mapchain: release/mapchain isn't the program whose sum release/record has, so it isn't run"
NO_PERMISSION = "mapchain: release/mapchain may not be run: it takes 'chmod +x release/mapchain', and a file system that runs programs"
A_FOLDER = "mapchain: crates/mapchain/out/mapchain is a folder, so no program can be built there"


class House:
    """A small repository with a released program, in a folder of its own."""

    def __init__(self, folder):
        self.top = folder / "a house's $(top) [a-z]"
        self.source = self.top / "crates/mapchain/src/main.rt"
        self.built = self.top / "crates/mapchain/out/mapchain"
        self.released = self.top / "release/mapchain"
        self.environment = {**os.environ, "PATH": f"{folder}/names:{os.environ['PATH']}"}
        write_program(folder / "names/rt", TOOLCHAIN)
        (self.top / "scripts").mkdir(parents=True)
        for name in ("mapchain", "scripts/program.sh", "scripts/program-path.sh"):
            shutil.copy(ROOT / name, self.top / name)
        (self.top / "crates.txt").write_text("decimals:\nmapchain: decimals\n")
        (self.top / "HANDLES").write_text("Handles allowed: none.\n")
        for name in ("decimals/src/lib.rt", "decimals/proofs/Sums.antt", "mapchain/src/main.rt"):
            (self.top / "crates" / name).parent.mkdir(parents=True, exist_ok=True)
            (self.top / "crates" / name).write_text("the first text")
        self.release()

    def release(self):
        write_program(self.released, "echo released")
        script = "root=.; . scripts/program.sh; take_sum; sum_of release/mapchain"
        run = subprocess.run(["sh", "-c", script], cwd=self.top, capture_output=True, text=True, check=True)
        sources, program = run.stdout.split()
        (self.top / "release/record").write_text(f"sources {sources}\nprogram {program}\nverdict none\nkit none\n")

    def expect(self, name, status, output, complaint=None):
        """Runs the launcher: its status, what the program says, and the first line of what is said beside."""
        ended = subprocess.run([self.top / "mapchain"], env=self.environment, capture_output=True, text=True, timeout=60)
        said = ended.stderr.split("\n")[0] if ended.stderr else None
        expect(name, (status, output + "\n" if output else "", complaint), (ended.returncode, ended.stdout, said))

    def change(self, path, text):
        """Writes a file, and gives it the time that it had, or a time long ago."""
        time.sleep(0.05)
        held = path.stat().st_mtime_ns if path.exists() else 10**18
        path.write_text(text)
        os.utime(path, ns=(held, held))


def try_changed_sources():
    with new_folder() as folder:
        house = House(folder)
        lemma = house.top / "crates/decimals/proofs/Sums.antt"
        for _ in range(2):
            house.expect("a released program", 0, "released")
        house.change(house.source, "the other text")
        house.expect("a source with its old time", 0, "built of the other text", NOT_OF_THESE)
        house.expect("the same again", 0, "built of the other text")
        house.change(house.source, "a third text")
        house.expect("a source with its old time behind a program that was built", 0, "built of a third text", NOT_OF_THESE)
        house.change(house.source, "the first text")
        house.expect("a source as it was, with its old time", 0, "released")
        house.change(lemma, "another lemma")
        house.expect("a lemma with its old time", 0, "built of the first text", NOT_OF_THESE)
        house.change(lemma, "the first text")
        house.change(folder / "More.antt", "a lemma")
        os.rename(folder / "More.antt", lemma.with_name("More.antt"))
        house.expect("a file that came with an old time", 0, "built of the first text", NOT_OF_THESE)
        time.sleep(0.05)
        lemma.with_name("More.antt").unlink()
        house.expect("a file that went", 0, "released")


def try_programs():
    with new_folder() as folder:
        house = House(folder)
        house.built.mkdir(parents=True)
        house.expect("a folder in the place of a program that was built", 0, "released")
        house.change(house.source, "the other text")
        house.expect("such a folder, and no release", 125, "", NOT_OF_THESE)
        path = subprocess.run([house.top / "scripts/program-path.sh"], env=house.environment, capture_output=True, text=True, timeout=60)
        expect("what is said of such a folder", (125, A_FOLDER), (path.returncode, path.stderr.strip().split("\n")[-1]))
        house.change(house.source, "the first text")
        house.built.rmdir()
        write_program(house.built, "echo built")
        house.expect("a program that was built", 0, "built")
        house.built.chmod(0o644)
        house.expect("one that was built, without its permission to run", 0, "released")
        house.released.chmod(0o644)
        house.expect("a released one without its permission to run", 125, "", NO_PERMISSION)
        house.released.write_text("no program")
        house.expect("a released one that isn't whole", 0, "built of the first text", NOT_WHOLE)


# ---- the installer


def permissions(folder):
    """The folders and files below a folder, each with its permissions."""
    return {str(path.relative_to(folder)): stat.S_IMODE(path.stat().st_mode) for path in sorted(folder.rglob("*"))}


# Words that name no folder below which all goes.
REFUSED = (
    [],
    [""],
    ["-x"],
    ["-x", "program"],
    ["--", "program"],
    ["--uninstall"],
    ["--uninstall", ""],
    ["--uninstall", "-x"],
    ["--uninstall", "--uninstall"],
    ["--uninstall", "--no-preserve-root"],
    ["new", "program", "more"],
)


def install(folder, umask, *words):
    return subprocess.run([ROOT / "scripts/install.sh", *words], cwd=folder, capture_output=True, text=True, timeout=60, umask=umask)


def try_install(name, folder, umask, prefix, held):
    """Installs below a folder, and takes all away again. What is held are the folders that were there, with their permissions."""
    run = install(folder, umask, str(prefix), "program")
    found = permissions(prefix)
    files = [path for path in found if (prefix / path).is_file()]
    expect(f"{name}: status", 0, run.returncode)
    expect(f"{name}: files", sorted(f"{prefix}/{path}" for path in files), sorted(run.stdout.split("\n")[:-1]))
    wanted = {path: 0o644 if path in files and not path.startswith("bin/") else 0o755 for path in found}
    expect(f"{name}: permissions", {**wanted, **held}, found)
    run = subprocess.run([prefix / "bin/mapchain"], capture_output=True, text=True)
    expect(f"{name}: the program", "installed\n", run.stdout)
    run = install(folder, umask, "--uninstall", str(prefix))
    left = [path for path in permissions(prefix) if (prefix / path).is_file()]
    expect(f"{name}: what is left", (0, "", []), (run.returncode, run.stderr, left))


def try_installer():
    with new_folder() as folder:
        write_program(folder / "program", "echo installed")
        (folder / "held/share").mkdir(parents=True)
        (folder / "held").chmod(0o700)
        (folder / "held/share").chmod(0o710)
        for umask in (0o022, 0o077):
            new = folder / f"new {umask:o}"
            try_install(f"a new folder with the umask {umask:o}", folder, umask, new / "inside", {})
            expect(f"the folder above it, with the umask {umask:o}", 0o755, stat.S_IMODE(new.stat().st_mode))
            try_install(f"folders that exist, with the umask {umask:o}", folder, umask, folder / "held", {"share": 0o710})
            expect(f"the one that exists, with the umask {umask:o}", 0o700, stat.S_IMODE((folder / "held").stat().st_mode))


def try_refused_prefixes():
    with new_folder() as folder:
        write_program(folder / "program", "echo installed")
        for words in REFUSED:
            run = install(folder, 0o022, *words)
            said = (run.returncode, run.stdout, run.stderr.partition(" [")[0])
            expect(f"install.sh {' '.join(words)}", (2, "", "install: scripts/install.sh PREFIX"), said)
        expect("what refused prefixes left", {"program": 0o755}, permissions(folder))


# ---- the completion of bash

SPACED = "spaces and $(touch ran).json"
CONTROL = "c\x01$(touch ran).json"
FILES = (SPACED, CONTROL, "it's.json", 'quoted "$(touch ran)".json', "one.json", "sub dir/`touch ran`.json", "sub dir/two.json")
# What is typed before the key that completes, and the last word that the program gets.
TYPED = (
    ("build a=sp", f"a={SPACED}"),
    ("build a=spaces\\ and\\ \\$", f"a={SPACED}"),
    ('build "a=sp', f"a={SPACED}"),
    ("build 'a=sp", f"a={SPACED}"),
    ('build a="sp', f"a={SPACED}"),
    ("build a='sp", f"a={SPACED}"),
    ('build a="spaces and', f"a={SPACED}"),
    ("build a\\ b=sp", f"a b={SPACED}"),
    ("build one=one.json a=sp", f"a={SPACED}"),
    ("build a=c", f"a={CONTROL}"),
    ('build "a=c', f"a={CONTROL}"),
    ('build a="c', f"a={CONTROL}"),
    ("build a=i", "a=it's.json"),
    ("build 'a=i", "a=it's.json"),
    ("build a=it\\'", "a=it's.json"),
    ("build a=q", 'a=quoted "$(touch ran)".json'),
    ('build "a=q', 'a=quoted "$(touch ran)".json'),
    ("build a=o", "a=one.json"),
    ("build a=./o", "a=./one.json"),
    ("build a=~/o", "a={folder}/one.json"),
    ("build a=$HOME/o", "a={folder}/one.json"),
    ("build a=su", "a=sub dir/"),
    ("build a=sub\\ dir/t", "a=sub dir/two.json"),
    ('build a="sub dir/t', "a=sub dir/two.json"),
    ('build a="sub dir"/t', "a=sub dir/two.json"),
    ("build a=sub\\ dir/\\`", "a=sub dir/`touch ran`.json"),
    ("build a=no", "a=no"),
    ("build sp", f"{SPACED.removesuffix('.json')}={SPACED}"),
    ("build o", "one=one.json"),
    ("build su", "sub dir/"),
    ("build -o sp", SPACED),
    ("build --report sp", SPACED),
    ("simplify sp", SPACED),
    ('simplify "c', CONTROL),
    ("geo --object a sp", SPACED),
    ("geo one.json --object ob", "objects of one"),
    ("geo one.json --object \\$", "$(touch ran)"),
    ("geo one.json --object tw", "tw"),
    ("stat q", 'quoted "$(touch ran)".json'),
    ("simplify --no-c", "--no-crossings"),
    ("sta", "stat"),
)
# Where = parts words, an option's file is completed behind it.
TYPED_PARTED = (
    ("build --output=sp", f"--output={SPACED}"),
    ("stat --report=o", "--report=one.json"),
    ("geo one.json --object=ob", "--object=objects of one"),
)
# What the stand-in's `stat` says of each file: an object's name may be a command, or have a mark that JSON escapes.
COUNTED = ("objects 3", '"objects of one" 3', '"$(touch ran)" 1', '"two\\u0007" 1', "arcs 2")


def completed(folder, setting, typed):
    """The last word that a stand-in for the program gets of each line, when what is typed of it is completed by an interactive bash."""
    lines = [
        f"source '{ROOT}/completions/mapchain.bash'",
        f"counted=({' '.join(shlex.quote(line) for line in COUNTED)})",
        "mapchain() { if [ \"$2\" = -- ]; then printf '%s\\n' \"${counted[@]}\"; else printf '%s\\0' \"${@: -1}\" >>words; fi; }",
        setting,
        *(f"mapchain {line}\t" for line in typed),
    ]
    environment = {"PATH": os.environ["PATH"], "HOME": str(folder), "LC_ALL": "C.UTF-8", "INPUTRC": "/dev/null", "TERM": "dumb"}
    shell = ["bash", "--norc", "--noprofile", "-i"]
    # (a session of its own, since bash would take the terminal for itself)
    typed_text = "".join(f"{line}\n" for line in lines)
    subprocess.run(shell, input=typed_text, cwd=folder, env=environment, capture_output=True, text=True, timeout=60, start_new_session=True)
    words = folder / "words"
    return words.read_text().split("\0")[:-1] if words.exists() else []


def try_completion():
    for setting, lines in (("", TYPED + TYPED_PARTED), ("COMP_WORDBREAKS=${COMP_WORDBREAKS//=}", TYPED)):
        with new_folder() as folder:
            (folder / "sub dir").mkdir()
            for name in FILES:
                (folder / name).touch()
            found = completed(folder, setting, [typed for typed, _ in lines])
            expect(f"lines that were run, with {setting or 'the default'}", len(lines), len(found))
            for (typed, wanted), word in zip(lines, found):
                expect(f"{typed} with {setting or 'the default'}", wanted.replace("{folder}", str(folder)), word)
            expect(f"commands in names, with {setting or 'the default'}", [], sorted(path.name for path in folder.rglob("ran")))


# The parts, and how much each tries.
PARTS = (
    (try_changed_sources, 9),
    (try_programs, 7),
    (try_installer, 24),
    (try_refused_prefixes, 12),
    (try_completion, 89),
)


def main():
    short = 0
    for part, wanted in PARTS:
        before = counts["tried"]
        part()
        tried = counts["tried"] - before
        if tried != wanted:
            short += 1
            print(f"{part.__name__}: {tried} tried, and {wanted} are to be")
    print(f"shell: {counts['tried']} tried, {counts['otherwise']} went otherwise")
    sys.exit(1 if counts["otherwise"] or short else 0)


if __name__ == "__main__":
    main()
