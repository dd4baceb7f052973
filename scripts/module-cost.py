#!/usr/bin/env python3
"""Shows what the proof of each function of a crate costs, in seconds by the clock:

    scripts/module-cost.py NAME            the functions of crates/NAME that took a second or more in its last check
    scripts/module-cost.py NAME 5          those that took five or more

It wants a check from nothing by one processor: `rm -rf out/incremental && rt check --jobs 1` in the crate's folder. The prover keeps a file of
each module when it has checked it, so the time between two files is what the later one took. After a function stand the parts that took
most: `Lts` is what its code costs, by its length, its exits and what is dropped at them; `Proof` what is left to the search; `Answers` what
proofs/ answers by hand; `Tie` how both are brought together. A file of lemmas has a line of its own. The status is 2 where nothing is kept.
"""
import re
import sys
from collections import Counter, defaultdict
from pathlib import Path

ROOT = Path(__file__).resolve().parent.parent
PART = re.compile(r"(.*?)\.(Lts|Proof|Answers|Tie|Goals|Kinds|Given|Code|Statement|Met|Invariants|Reads|Layout|Carried|TheLink|Named|Symbol)\b")


def kept(crate):
    """The modules of the crate that are kept, with the time of each, in order of time."""
    files = (crate / "out" / "incremental").rglob("*.oantt")
    return sorted((file.stat().st_mtime, file.name) for file in files)


def costs(modules):
    """The seconds of each function or file of lemmas, and of its parts."""
    whole, parts = Counter(), defaultdict(Counter)
    for (before, _), (time, module) in zip(modules, modules[1:]):
        if "-proofs." not in module or ".below." in module:
            continue
        name = module.split("-proofs.", 1)[1].removesuffix(".oantt").removesuffix(".decls")
        found = PART.match(name)
        name, part = found.groups() if found else (name, "lemmas")
        whole[name] += time - before
        parts[name][part] += time - before
    return whole, parts


def main():
    if len(sys.argv) not in (2, 3):
        sys.exit(__doc__)
    least = float(sys.argv[2]) if len(sys.argv) == 3 else 1
    modules = kept(ROOT / "crates" / sys.argv[1])
    if not modules:
        print(f"module-cost: nothing is kept of crates/{sys.argv[1]}", file=sys.stderr)
        sys.exit(2)
    whole, parts = costs(modules)
    for name, seconds in whole.most_common():
        if seconds < least:
            break
        dearest = ", ".join(f"{part} {took:.1f}" for part, took in parts[name].most_common(3))
        print(f"{seconds:6.1f}  {name} ({dearest})")
    print(f"{modules[-1][0] - modules[0][0]:6.0f}  from the first module to the last")


if __name__ == "__main__":
    main()
