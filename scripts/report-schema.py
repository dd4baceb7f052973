#!/usr/bin/env python3
"""Runs the commands of the worked examples (crates/worked_examples/FORMAT.md) with `--report`, as a process each, and looks at the reports:

    scripts/report-schema.py                     the program of ./mapchain, which is proved and built first where it has to be
    scripts/report-schema.py path/to/mapchain    another program with the same commands

Each command that a process can run, and that has no `--report` of its own, gets `--report run.json` after its name. Standard output, standard
error, status and files have to be what the page says without it, as scripts/pages.py compares them, but for the report. That has to be one
JSON object and a line feed, laid out as docs/FORMATS.md says, and valid by docs/report.schema.json. Its status has to be the process's, and what
it reports of a fault, or of what was counted, what standard error has. Words that ask for help, name no command, or are refused by the usage, whose
text names the options that were given, stay without it. It needs Debian's python3-jsonschema.

It prints a line for each command that went otherwise, and at its end how many there were. The status is 0 where all went as they should, of
each page as many commands were run as scripts/commands.txt has for it, and more than nine in ten of them had a report. The gate runs it where
python3 has jsonschema.
"""
import json
import sys
import tempfile
from concurrent.futures import ProcessPoolExecutor
from functools import partial
from pathlib import Path

sys.dont_write_bytecode = True

import jsonschema

from pages import PAGES, ROOT, brief, is_page, missed, path_of, program_path, run, run_page

SCHEMA = ROOT / "docs" / "report.schema.json"
COMMANDS = {"build", "simplify", "geo", "stat"}
TAKE_ANY_TEXT = {"--min-area", "--min-ring-area", "--keep"}
REPORT = "run.json"
# How many of the commands have a report at least.
LEAST_SHARE = 0.9
REFUSED_BY_USAGE = b"\nFor more information, try '--help'."
# How a line ends that tells of a feature that is lost.
LOSS_ENDING = ": nothing of its geometry is left"
# What standard error has where a layer's word isn't NAME=PATH.
NO_LAYER = b" has no =\n"


def options_of(words):
    """The words that are options: not after `--`, and not the text of an option that takes any."""
    words = iter(words)
    for word in words:
        if word == "--":
            return
        if word in TAKE_ANY_TEXT:
            next(words, None)
        elif word.startswith("-"):
            yield word.partition("=")[0]


def takes_report(step):
    """Whether the words of a command go on to a report."""
    if not step.words or step.words[0] not in COMMANDS:
        return False
    if {"-h", "--help", "--report"} & set(options_of(step.words[1:])):
        return False
    return not any(words in step.error for words in (REFUSED_BY_USAGE, NO_LAYER))


def fault_line(fault):
    """The line of a fault, of the parts that there are."""
    parts = ["error:"]
    if fault["layer"] is not None:
        parts.append(f"layer {fault['layer']}")
    if fault["code"]:
        parts.append(fault["code"])
    parts.append(fault["name"])
    for number in "at", "feature", "sent":
        if fault[number] is not None:
            parts.append(f"{number} {fault[number]}")
    return " ".join(parts) + "\n"


def report_lines(report):
    """The lines of a report."""
    for word in "rounded", "extra", "empty":
        yield f"{word} {report[word]}\n"
    yield f"dropped {len(report['dropped'])}\n"
    for dropped in report["dropped"]:
        path = ".".join(map(str, dropped["path"])) or "-"
        yield f"drop {dropped['layer']} {dropped['feature']} {path} {dropped['cause']}\n"
    for word in "arcs", "kept", "removed":
        yield f"{word} {report[word]}\n"
    if report["chosen"] is not None:
        yield f"chosen {report['chosen']}\n"


def told(value):
    """What standard error has where this is the report of the run."""
    if value["fault"]:
        return fault_line(value["fault"])
    return "".join(report_lines(value["report"])) if value["report"] else ""


class Reports:
    """The reports of the commands of a page that were run."""

    def __init__(self, page):
        schema = json.loads(SCHEMA.read_text())
        jsonschema.Draft202012Validator.check_schema(schema)
        self.validator = jsonschema.Draft202012Validator(schema)
        self.seen = self.wrong = self.without = 0
        self.page = page

    def run(self, program, step, folder):
        """Runs a command, with a report if it takes one, looks at the report, and takes it away."""
        if not takes_report(step):
            self.without += 1
            return run(program, step.words, folder)
        status, output, error = run(program, [step.words[0], "--report", REPORT, *step.words[1:]], folder)
        self.seen += 1
        if difference := self.difference(folder / REPORT, status, error, set(options_of(step.words[1:]))):
            self.wrong += 1
            print(f"{self.page}: the report of mapchain {' '.join(step.words)}: {difference}")
        (folder / REPORT).unlink(missing_ok=True)
        return status, output, error

    def difference(self, path, status, error, options):
        """In words what is wrong with a report of a run with these options: nothing where it is as it should be."""
        if not path.is_file():
            return "there is none"
        try:
            text = path.read_bytes().decode()
            value = json.loads(text)
        except ValueError as fault:
            return f"no JSON text: {fault}"
        if refused := jsonschema.exceptions.best_match(self.validator.iter_errors(value)):
            return f"at {refused.json_path}: {refused.message}"
        if text != json.dumps(value, ensure_ascii=False, separators=(",", ":")) + "\n":
            return "not laid out as the format says"
        if value["status"] != status:
            return f"status {value['status']}, and that of the process is {status}"
        if value["report"] and value["report"]["lost"] != sum(line.endswith(LOSS_ENDING) for line in value["explanation"]):
            return f"{value['report']['lost']} features are lost, and not as many are named"
        lines = "" if value["status"] == 0 and options & {"-q", "--quiet"} else told(value)
        if "--explain" in options:
            lines += "".join(f"  {line}\n" for line in brief(value["explanation"]))
        if lines.encode() != error:
            return f"it gives {lines!r}, and standard error has {error.decode(errors='replace')!r}"
        return ""


def try_page(program, page):
    """Runs the commands of a page. The counts are of all that were run, those that went otherwise, with a report, without, and wrong reports."""
    reports = Reports(page.name)
    with tempfile.TemporaryDirectory() as folder:
        ran, otherwise = run_page(program, page, Path(folder), reports.run)
    return ran, otherwise, reports.seen, reports.without, reports.wrong


def main():
    program = Path(sys.argv[1]).resolve() if len(sys.argv) > 1 else program_path()
    pages = sorted(PAGES.glob("*.md"))
    with ProcessPoolExecutor() as pool:
        counts = list(pool.map(partial(try_page, str(program)), pages))
    ran = {path_of(page): count[0] for page, count in zip(pages, counts)}
    total, otherwise, seen, without, wrong = map(sum, zip(*counts)) if counts else [0] * 5
    print(
        f"{len(ran)} pages, {seen} commands with a report and {without} without: "
        f"{wrong} reports not as they should be, {otherwise} commands went otherwise"
    )
    is_enough = seen > LEAST_SHARE * total
    if not is_enough:
        print(f"no more than {LEAST_SHARE:.0%} of the commands have a report")
    sys.exit(1 if missed(ran, is_page) or wrong or otherwise or not is_enough else 0)


if __name__ == "__main__":
    main()
