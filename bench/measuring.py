"""What the scripts beside it share: the two programs, single runs of them, and figures of many runs."""
import math
import os
import re
import subprocess
import time

HERE = os.path.dirname(os.path.abspath(__file__))
TOP = os.path.dirname(HERE)
YARDSTICK = os.path.join(HERE, "out", "release", "yardstick")


def build_yardstick():
    command = ["cargo", "build", "--release", "--offline", "--quiet", "--target-dir", os.path.join(HERE, "out")]
    subprocess.run(command, check=True, cwd=os.path.join(HERE, "yardstick"))


def program():
    """The built program: what PROGRAM names, or the repository's, which is then proved and built first."""
    named = os.environ.get("PROGRAM")
    if named:
        return os.path.abspath(named)
    subprocess.run([os.path.join(TOP, "mvfeed"), "run"], input=b"", stdout=subprocess.DEVNULL, check=True)
    return os.path.join(TOP, "crates", "mvfeed", "out", "mvfeed")


def heading(what, named=os.environ.get("PROGRAM")):
    """When, on what and of which commit a table is, unless it is of a program that was named."""
    commit = subprocess.run(["git", "-C", TOP, "rev-parse", "--short", "HEAD"], capture_output=True, text=True)
    day = time.strftime("%d %B %Y", time.gmtime()).lstrip("0")
    of = "another program" if named else commit.stdout.strip() or "no commit"
    return "%s, of %s, on %s, %d processors, load %.1f." % (what, of, day, os.cpu_count(), os.getloadavg()[0])


def one_run(words, source, target, limit=600):
    """Processor seconds, greatest resident kilobytes and status of a run, or nothing where it takes too long."""
    command = [YARDSTICK, "time", str(limit), source, target, *words]
    seconds, kilobytes, status = subprocess.run(command, capture_output=True, text=True, check=True).stdout.split()
    return None if int(status) >= 256 else (float(seconds), int(kilobytes), int(status))


def instructions(words, source):
    """How many instructions a run takes."""
    command = ["valgrind", "--tool=callgrind", "--callgrind-out-file=/dev/null", *words]
    with open(source, "rb") as script:
        run = subprocess.run(command, stdin=script, stdout=subprocess.DEVNULL, stderr=subprocess.PIPE, text=True)
    return int(re.search(r"Collected : (\d+)", run.stderr)[1])


def growth(points):
    """The power of the size with which a cost grows, fitted by least squares over logarithms."""
    logs = [(math.log(size), math.log(max(cost, 1e-6))) for size, cost in points]
    mean_x, mean_y = (sum(column) / len(logs) for column in zip(*logs))
    spread = sum((x - mean_x) ** 2 for x, _ in logs)
    return sum((x - mean_x) * (y - mean_y) for x, y in logs) / spread if spread else None


def mean_of_ratios(ratios):
    return math.exp(sum(map(math.log, ratios)) / len(ratios))
