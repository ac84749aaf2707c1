#!/usr/bin/env python3
"""`examples/pipes.py ./mvfeed` uses a database that lives at the end of a pipe: it writes a call, reads its event and
goes on, and then reads while a thread writes. docs/OPERATING.md says what to mind. It takes a second."""

import subprocess
import sys
import threading

MANY = 20000


def read_event(stream):
    """The lines of the next event, or None at the end."""
    line = stream.readline()
    if " => " not in line:
        return None  # the end, or the line that tells a fault
    answer = line[line.rindex(" => ") + 4 :].split()
    return [line] + [stream.readline() for _ in range(int(answer[1]) if answer[0] in ("rows", "messages") else 0)]


def main(program):
    pipes = {"stdin": subprocess.PIPE, "stdout": subprocess.PIPE, "text": True}
    mvfeed = subprocess.Popen([*program, "run", "--format", "2"], **pipes)

    def write(line):
        mvfeed.stdin.write(line + "\n")
        mvfeed.stdin.flush()

    def ask(line):
        write(line)
        return read_event(mvfeed.stdout)

    def write_many():
        for number in range(20, MANY):
            mvfeed.stdin.write("1 begin %d\n1 put %d key %s\n1 commit %d\n" % (number, number, "x" * 100, number))
        mvfeed.stdin.close()

    write("0 begin 10")
    assert mvfeed.stdout.readline() == "mvfeed 2\n"
    assert read_event(mvfeed.stdout) == ["0 0 begin 10 => started\n"]
    assert ask("0 put 10 apple 3") == ["1 0 put 10 apple 3 => written\n"]
    assert ask("0 scan 10 - -") == ["2 0 scan 10 - - => rows 1\n", "row apple 3\n"]
    threading.Thread(target=write_many).start()
    events = 0
    while read_event(mvfeed.stdout):
        events += 1
    assert events == 3 * (MANY - 20) and mvfeed.wait() == 0
    print(events, "events were read while their calls were written")


if __name__ == "__main__":
    main(sys.argv[1:])
