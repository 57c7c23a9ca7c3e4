"""The host of beyond.py: loads an extension whose handlers.json is the file HANDLERS by the C library
LIBRARY, and updates the extension with the same bytes. It prints the processor seconds of both, and its peak
memory before the load, after the load and at the end.

  PYTHONPATH=hosts/python python3 tools/hostile_files/host.py LIBRARY HANDLERS
"""

import json
import resource
import sys
import time

sys.dont_write_bytecode = True

from pafjirn import Engine, LoadRefused


def peak():
    return resource.getrusage(resource.RUSAGE_SELF).ru_maxrss * 1024


def timed(call):
    """What a call returns, and its processor seconds."""
    before = time.process_time()
    answer = call()
    return answer, time.process_time() - before


def host(library, path):
    """Loads the file and updates the extension with it. For a refused load, the answer is its message."""
    with open(path, "rb") as file:
        handlers = file.read()
    with Engine(library) as engine:
        engine.extension(b'{"publisher":"p","name":"e"}', handlers)
        memory = [peak()]
        try:
            _, load = timed(engine.load)
        except LoadRefused as refused:
            return {"answer": str(refused)}
        memory.append(peak())
        record, update = timed(lambda: engine.line(b"update p.e " + handlers))
        return {"answer": record.trace, "seconds": [load, update], "memory": [*memory, peak()]}


if __name__ == "__main__":
    print(json.dumps(host(*sys.argv[1:])))
