"""What the scripts of bench/ share: running a program and telling what it took, and rows of a table.

Processor time and memory are those that the system counts for the child, its own children included that it waited for. The memory is the most that was resident; below some
16 MiB it may be that of Python, from which the child comes.
"""
import os
import statistics
import sys
import time

ROUNDS = 3
MIB = 1 << 20


class Took:
    """What a run took: seconds of a processor, those of them that its first thread took itself, seconds that passed, bytes of
    memory, and its status."""

    def __init__(self, processor, own, passed, memory, status):
        self.processor, self.own, self.passed, self.memory, self.status = processor, own, passed, memory, status


def run(words, out=os.devnull, folder=None, status=0):
    """Runs a program with its standard output to a file, and stops where its status is another one."""
    begin = time.monotonic()
    pid = os.fork()
    if pid == 0:
        try:
            if folder:
                os.chdir(folder)
            os.dup2(os.open(out, os.O_WRONLY | os.O_CREAT | os.O_TRUNC), 1)
            os.dup2(os.open(os.devnull, os.O_WRONLY), 2)
            os.execvp(words[0], words)
        finally:
            os._exit(127)
    os.waitid(os.P_PID, pid, os.WEXITED | os.WNOWAIT)
    with open(f"/proc/{pid}/schedstat", encoding="ascii") as file:
        own = int(file.read().split()[0]) / 1e9
    _, code, used = os.wait4(pid, 0)
    found = os.waitstatus_to_exitcode(code)
    if found != status:
        sys.exit(f"{' '.join(words)}: status {found}, wanted {status}")
    return Took(used.ru_utime + used.ru_stime, own, time.monotonic() - begin, used.ru_maxrss * 1024, found)


def rounds(*runs, count=ROUNDS):
    """Some rounds of several runs, beside each other, so that other work on the machine shows in all of them."""
    found = [[one() for one in runs] for _ in range(count)]
    return list(zip(*found))


def seconds(numbers):
    least, most = min(numbers), max(numbers)
    digits = 2 if most >= 0.1 else 4
    return f"{least:.{digits}f} to {most:.{digits}f} s"


def ratios(above, below):
    """The quotients of each round."""
    found = [a / b for a, b in zip(above, below)]
    return f"{min(found):.2f} to {max(found):.2f} times"


def middle(above, below):
    """The one in the middle of these quotients."""
    return f"{statistics.median(a / b for a, b in zip(above, below)):.2f} times"


def memory(runs):
    return f"{max(one.memory for one in runs) / MIB:.0f} MiB"


def put(folder, files):
    """Writes files, by their paths below a folder."""
    for path, text in files.items():
        os.makedirs(os.path.dirname(f"{folder}/{path}") or folder, exist_ok=True)
        with open(f"{folder}/{path}", "w", encoding="utf-8") as file:
            file.write(text)


def program_of(words, usage):
    """The program that the command line names."""
    if len(words) < 1 or not os.access(words[0], os.X_OK):
        sys.exit(f"usage: {usage}")
    return os.path.abspath(words[0])
