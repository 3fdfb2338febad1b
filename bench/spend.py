"""Runs programs, one for each line of the input, whose words are separated by tabs. Prints the status of each, its seconds of a processor
and the most megabytes that it had. This is a process of its own because a child's memory includes what its parent had when it was forked,
which is little here."""

import os
import resource
import subprocess
import sys

SPACE, LONGEST_RUN = 1_000_000_000, 30


def confine():
    resource.setrlimit(resource.RLIMIT_AS, (SPACE, SPACE))
    resource.setrlimit(resource.RLIMIT_CPU, (LONGEST_RUN, LONGEST_RUN + 1))


def spend(words):
    begun = os.fork()
    if begun == 0:
        confine()
        for out in (1, 2):
            os.dup2(os.open(os.devnull, os.O_WRONLY), out)
        os.execv(words[0], words)
    _, status, used = os.wait4(begun, 0)
    return os.waitstatus_to_exitcode(status), used.ru_utime + used.ru_stime, used.ru_maxrss * 1024 / 1_000_000


class Spender:
    """Starts this file as a process, and passes programs to it."""

    def __init__(self):
        self.process = subprocess.Popen(
            [sys.executable, "-S", "-E", os.path.abspath(__file__)], stdin=subprocess.PIPE, stdout=subprocess.PIPE, text=True)

    def run(self, *words):
        self.process.stdin.write("\t".join(words) + "\n")
        self.process.stdin.flush()
        status, seconds, held = self.process.stdout.readline().split()
        return int(status), float(seconds), float(held)


if __name__ == "__main__":
    for line in sys.stdin:
        print(*spend(line.rstrip("\n").split("\t")), flush=True)
