"""The file of tools/hostile-files --beyond: 1,000 handlers of 10,000 instructions, 60 MB of text. keyrun
reads no file of more than 16 MiB, so a host passes the file to the C library (host.py). That host uses
hosts/python, which takes bytes of any length.
"""

import json
import os
import subprocess
import sys
import tempfile

from hostile_files.large import code_of, growth_fault
from shared.kit import TOP

LIBRARY = os.environ.get("PAFJIRN_LIBRARY") or os.path.join(TOP, ".rt/prefix/lib/libpafjirn.so")
HOST = os.path.join(TOP, "tools/hostile_files/host.py")
COUNTS = (250, 500, 1_000)
INSTRUCTIONS = 10_000


def write_handlers(file, count, instructions):
    """Writes a handlers.json piece by piece, since the peak memory of this process counts as its
    children's."""
    code = code_of(instructions)
    file.write(b'{"version":1,"handlers":[')
    for at in range(count):
        comma = b"," if at else b""
        file.write(comma + b'{"command":"x.h%d","budget":20000,"depth":1,"code":"%s"}' % (at, code))
    file.write(b"]}")
    file.flush()
    return file.tell()


def answer_of(count, instructions):
    """The size of a file with this many handlers, and the answer of the host."""
    with tempfile.NamedTemporaryFile(prefix="hostile-beyond-") as file:
        size = write_handlers(file, count, instructions)
        # (a separate process, so that its peak memory is that of one file)
        words = [sys.executable, HOST, LIBRARY, file.name]
        more = {**os.environ, "PYTHONPATH": os.path.join(TOP, "hosts/python")}
        done = subprocess.run(words, env=more, capture_output=True, check=False)
    try:
        return size, json.loads(done.stdout)
    except ValueError:
        said = done.stderr.decode(errors="replace")[-300:]
        return size, {"answer": "status %d, %s" % (done.returncode, said)}


def try_beyond():
    """The number of loads, and what is wrong. Prints a table."""
    if not os.path.exists(LIBRARY):
        print("skipped, since there is no %s (tools/build-library makes it)" % LIBRARY)
        return 0, []
    names = ["handlers of 10,000 instructions", "MB", "load: seconds", "update: seconds"]
    names.append("MB before the load, after it, at the end")
    print("| %s |\n|%s" % (" | ".join(names), "---|" * len(names)))
    faults, before = [], None
    for count in COUNTS:
        size, found = answer_of(count, INSTRUCTIONS)
        if found["answer"] != "updated p.e\n":
            faults.append("%d handlers: %s" % (count, found["answer"]))
            continue
        memory = ", ".join("%.0f" % (it / 1e6) for it in found["memory"])
        row = count, size / 1e6, *found["seconds"], memory
        print("| %d | %.0f | %.2f | %.2f | %s |" % row, flush=True)
        now = found["seconds"][0], found["memory"][1]
        if before and (fault := growth_fault(before, now)):
            faults.append("%d handlers: %s" % (count, fault))
        before = now
    refused = answer_of(COUNTS[-1] + 1, 1)[1]["answer"]
    if not refused.endswith("handlers.json 44 TooLarge"):
        faults.append("1,001 handlers: " + refused)
    return len(COUNTS) + 1, faults
