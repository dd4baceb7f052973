#!/usr/bin/env python3
"""Gives random files to the program with `--explain` and `--report` and without, and reports each run in which these change more than they should:

    scripts/explained.py release/mapchain 1000 7

The second word is how many layers and how many topologies there are, the third the seed. The status, standard output and what stands first on
standard error have to be the same, each line after that has to begin with two blanks, and the report has to hold the status and these lines,
with those of lost features that standard error leaves out.
The features of which an explanation says that nothing of their geometry is left have to be those of which a line or a ring was dropped and
which are written without any, and the report has their number. Through a pipe all has to be the same. At its end it prints how many runs there were, and how many faults had no line but that of their file.
"""
import json
import os
import re
import subprocess
import sys
import tempfile
from pathlib import Path

sys.dont_write_bytecode = True

import random_files
from pages import brief

COMMANDS = (
    ("layer", ["build", "a=a.json"]),
    ("layer", ["build", "--grid", "7", "--min-area", "0.3", "--min-ring-area", "1", "a=a.json"]),
    ("topology", ["simplify", "--min-area", "0.3", "--min-ring-area", "1", "a.json"]),
    ("topology", ["geo", "--object", "a", "a.json"]),
    ("topology", ["stat", "a.json"]),
)


def run(program, words, folder, piped=None):
    ended = subprocess.run([program, *words], cwd=folder, input=piped, capture_output=True, timeout=60)
    return ended.returncode, ended.stdout, ended.stderr.decode()


def has_parts(geometry):
    """Whether anything is left of a geometry of a topology."""
    if geometry["type"] == "GeometryCollection":
        return any(map(has_parts, geometry["geometries"]))
    return geometry["type"] is not None


def emptied(output, report):
    """The numbers of object and feature of which something was dropped and nothing is left."""
    dropped = {(each["layer"], each["feature"]) for each in report["dropped"]}
    left = set()
    for number, geometry in enumerate(json.loads(output)["objects"].values()):
        features = geometry["geometries"] if geometry["type"] == "GeometryCollection" else [geometry]
        left |= {(number, at) for at, feature in enumerate(features) if has_parts(feature)}
    return dropped - left


def told_emptied(output, lines):
    """Those of which the explanation says so."""
    names = [json.dumps(name, ensure_ascii=False) for name in json.loads(output)["objects"]]
    for line in lines:
        if match := re.fullmatch(r'(?:layer (\d+)|object ("(?:[^"\\]|\\.)*")), feature (\d+)\b.*: nothing of its geometry is left', line):
            yield int(match[1]) if match[1] else names.index(match[2]), int(match[3])


def piped_difference(program, words, folder, status, output, error, lines):
    """In words what is wrong with the same command where its file is a pipe."""
    name = "a.json"
    through = [word.replace(name, "/dev/stdin") for word in words]
    ended = run(program, [through[0], "--explain", *through[1:]], folder, (folder / name).read_bytes())
    if ended[:2] != (status, output) or not ended[2].startswith(error):
        return f"otherwise through a pipe: {ended[0]}, {ended[2]!r}"
    said = ended[2][len(error) :].replace("/dev/stdin", name).splitlines()
    return "" if said == lines else f"through a pipe it says {said!r}"


def difference(program, words, folder):
    """In words what is wrong with a command: nothing where it is as it should be; and how many lines stand after the first."""
    status, output, error = run(program, words, folder)
    (folder / "run.json").unlink(missing_ok=True)
    explained = run(program, [words[0], "--explain", "--report", "run.json", *words[1:]], folder)
    if explained[:2] != (status, output) or not explained[2].startswith(error):
        return f"otherwise: {explained[0]}, {explained[2]!r}", 0
    lines = explained[2][len(error) :].splitlines()
    run_report = json.loads((folder / "run.json").read_text())
    if run_report["status"] != status or [f"  {line}" for line in brief(run_report["explanation"])] != lines:
        return f"the report differs: {run_report}", 0
    if run_report["report"]:
        lost = emptied(output, run_report["report"])
        if lost != set(told_emptied(output, run_report["explanation"])) or len(lost) != run_report["report"]["lost"]:
            return f"other features are left without a geometry: {run_report}", 0
    return piped_difference(program, words, folder, status, output, error, lines), len(lines)


def main():
    program, count, seed = os.path.abspath(sys.argv[1]), int(sys.argv[2]), int(sys.argv[3])
    random_files.rng.seed(seed)
    runs = wrong = unexplained = 0
    with tempfile.TemporaryDirectory() as room:
        folder = Path(room)
        for _ in range(count):
            made = {"layer": random_files.random_layer(), "topology": random_files.random_topology()}
            for kind, words in COMMANDS:
                (folder / "a.json").write_bytes(made[kind])
                told, lines = difference(program, words, folder)
                runs += 1
                unexplained += lines == 1 and run(program, words, folder)[0] == 1
                if told:
                    wrong += 1
                    print(f"mapchain {' '.join(words)}: {told}\n{made[kind]!r}")
    print(f"{runs} commands, {wrong} went otherwise, {unexplained} faults with no more than their file")
    sys.exit(1 if wrong else 0)


if __name__ == "__main__":
    main()
