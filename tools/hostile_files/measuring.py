"""Measures the runs of programs by a separate process.

Run as a program, this file is that process. It uses little memory itself, since the peak memory of a process
counts as its children's.
"""

import json
import os
import subprocess
import sys


class Measurer:
    """Runs programs from the separate process."""

    def __init__(self):
        words = [sys.executable, "-S", os.path.abspath(__file__)]
        self.process = subprocess.Popen(words, stdin=subprocess.PIPE, stdout=subprocess.PIPE)

    def run(self, words, folder):
        """The status, the seconds of processor time and the peak memory of a run."""
        self.process.stdin.write(json.dumps([words, folder]).encode() + b"\n")
        self.process.stdin.flush()
        return json.loads(self.process.stdout.readline())

    def close(self):
        self.process.stdin.close()
        self.process.wait()


def serve():
    """The process that measures. Each line of its input has the command line of a program and its folder."""
    for line in sys.stdin:
        words, folder = json.loads(line)
        paths = [os.path.join(folder, it) for it in ("script", "out", "err")]
        flags = (os.O_RDONLY, *[os.O_WRONLY | os.O_CREAT | os.O_TRUNC] * 2)
        opened = [os.open(path, it) for path, it in zip(paths, flags)]
        child = os.fork()
        if child == 0:
            os.chdir(folder)
            for at, file in enumerate(opened):
                os.dup2(file, at)
            os.execv(words[0], words)
        _, status, usage = os.wait4(child, 0)
        for file in opened:
            os.close(file)
        seconds, memory = usage.ru_utime + usage.ru_stime, usage.ru_maxrss * 1024
        print(json.dumps([os.waitstatus_to_exitcode(status), seconds, memory]), flush=True)


if __name__ == "__main__":
    serve()
