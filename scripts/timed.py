#!/usr/bin/env python3
"""Runs a command some times, and prints the seconds of its fastest run and its greatest peak of memory in MB,
which is never less than this script's own, some 14 MB.

    scripts/timed.py 5 map.topojson ./mapchain build map=map.json
    scripts/timed.py --processor 5 map.topojson ./mapchain build map=map.json

With `--processor` the seconds are those that processors were at work for the command, in the program and in the system for it, and the
fastest run is the one with the fewest: on a machine that is busy they say more than those of the clock, though not all.
The first word is how often it runs, the second the file for its standard output. What it writes to standard error is shown
only where a run ends with another status than 0; then this script ends with that status too.
"""
import os
import subprocess
import sys
import tempfile
import time


def run(out, command, by_processor):
    """The seconds, by the clock or by the processors, the peak in MB and the status of one run."""
    with open(out, "wb") as written, tempfile.TemporaryFile() as errors:
        start = time.perf_counter()
        child = subprocess.Popen(command, stdout=written, stderr=errors)
        _, ended, usage = os.wait4(child.pid, 0)
        seconds = time.perf_counter() - start
        if by_processor:
            seconds = usage.ru_utime + usage.ru_stime
        child.returncode = os.waitstatus_to_exitcode(ended)
        if child.returncode != 0:
            errors.seek(0)
            sys.stderr.buffer.write(errors.read())
    return seconds, usage.ru_maxrss / 1024, child.returncode


def main():
    words = sys.argv[1:]
    by_processor = words[0] == "--processor"
    if by_processor:
        del words[0]
    times, out, command = int(words[0]), words[1], words[2:]
    best, peak = float("inf"), 0.0
    for _ in range(times):
        seconds, size, status = run(out, command, by_processor)
        if status != 0:
            sys.exit(status if status > 0 else 1)
        best, peak = min(best, seconds), max(peak, size)
    print(f"{best:.4f} {peak:.1f}")


if __name__ == "__main__":
    main()
