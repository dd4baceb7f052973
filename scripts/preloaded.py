"""Compiles a library of a few lines of C that a program is made to load (LD_PRELOAD), so that calls of the C library end in another way."""
import os
import shutil
import subprocess
import sys


def compiled(text, path):
    """Compiles the library to this path, by the compiler that CC names, by cc or by gcc. Where there is none nothing can be tried, so the script
    fails."""
    script = os.path.basename(sys.argv[0])
    compiler = next(filter(shutil.which, [os.environ.get("CC") or "cc", "gcc"]), None)
    if not compiler:
        sys.exit(f"{script}: it takes a C compiler, and there is none: neither CC nor cc nor gcc names one, so nothing was tried")
    words = [compiler, "-shared", "-fPIC", "-O1", "-x", "c", "-", "-o", path]
    if subprocess.run(words, input=text.encode()).returncode:
        sys.exit(f"{script}: {compiler} didn't compile a library for the program to load, so nothing was tried")
    return path
