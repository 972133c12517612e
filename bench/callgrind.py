"""Counts the instructions of programs by callgrind, for bench/counts and bench/rivals."""

import re
import shutil
import subprocess
import tempfile
from pathlib import Path

# A case is run three times: first for what is done once only, and then twice for the difference, which leaves out what comes before
# the calls and after them. Both numbers have as many digits, so that reading them takes as long.
FEW, MANY = 10, 30
# A program starts in a folder whose name has a fixed length, with this environment: where its arrays lie depends on such bytes, and
# on that how many instructions a copy takes.
ENVIRONMENT = {"PATH": "/usr/bin:/bin"}


def instructions(path):
    """Returns the instructions that a file of callgrind's tells of."""
    return int(re.search(r"^(?:totals|summary): (\d+)", path.read_text(errors="replace"), re.MULTILINE).group(1))


def parts(program, flags, words):
    """Runs a program under callgrind. Returns its status, what it said, and the instructions of each part that it was told to count."""
    with tempfile.TemporaryDirectory(dir="/tmp", prefix="counts-") as folder:
        own = shutil.copy(program, folder)
        call = ["valgrind", "--tool=callgrind", f"--callgrind-out-file={folder}/counts", *flags, own, *words]
        done = subprocess.run(call, cwd=folder, capture_output=True, text=True, env=ENVIRONMENT)
        files = sorted(Path(folder).glob("counts*"), key=lambda part: int(part.suffix[1:] or 0))
        return done.returncode, done.stderr, [instructions(file) for file in files]


def case(program, words, behind=()):
    """Runs a case. Returns the status of the program, what it said, and the instructions of one time that the call is made. A program
    that reads a case's words before its mark reads one case more for FEW than for MANY, unless `behind` says how often the case is
    run once more after them."""
    times = [word for times in (FEW, FEW, MANY, *behind) for word in (*words, str(times))]
    status, said, counted = parts(program, ["--dump-before=*mark_case*"], times)
    # What comes before the runs is the first part, and what comes after them the one without a number.
    return status, said, None if status else (counted[4] - counted[3]) / (MANY - FEW)
