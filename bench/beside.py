"""A program whose files end in .in, since no crate of this repository may be it, built beside copies of the crates that
it stands on."""
import os
import shutil
import subprocess
import sys

import measuring


def crates_of(line_of, name):
    """A crate and those that it stands on, lowest first."""
    found = []
    for below in line_of[name].partition(":")[2].split():
        if below in line_of:
            found += [it for it in crates_of(line_of, below) if it not in found]
    return found + [name]


def built(folder, above, words):
    """The program of this line of crates.txt, run once with these words."""
    with open(os.path.join(measuring.TOP, "crates.txt")) as listed:
        lines = [line.partition("#")[0].strip() for line in listed]
    line_of = {line.partition(":")[0].split()[0]: line for line in [*lines, above] if ":" in line}
    program, top = above.split()[0], os.path.join(folder, "top")
    names = crates_of(line_of, program)
    for name in names[:-1]:
        left_out = shutil.ignore_patterns("incremental", "must-fail", "wrong-bodies")
        shutil.copytree(os.path.join(measuring.TOP, "crates", name), os.path.join(top, "crates", name), ignore=left_out)
    shutil.copy(os.path.join(measuring.TOP, "HANDLES"), top)
    with open(os.path.join(top, "crates.txt"), "w") as sink:
        sink.write("\n".join([*(line_of[name] for name in names), ""]))
    crate = os.path.join(top, "crates", program)
    shutil.copytree(os.path.join(measuring.HERE, program), crate)
    for at, _, files in os.walk(crate):
        for name in files:
            os.rename(os.path.join(at, name), os.path.join(at, name.removesuffix(".in")))
    told = subprocess.run(["rt", "run", "--", *words.split()], cwd=crate, capture_output=True, text=True)
    if told.returncode:
        sys.exit(told.stdout + told.stderr)
    return os.path.join(crate, "out", program)
