"""The class Keycheck of hosts/wasm, in Node."""

import base64
import json
import os
import subprocess
import types

from shared.kit import TOP

PLAYER = os.path.join(TOP, "hosts/wasm/tests/keychecks.js")


class KeycheckInNode:
    """One Keycheck of a process, which has the package in this folder. Its calls are those of hosts/python,
    and a call that throws raises ValueError."""

    def __init__(self, package):
        env = {**os.environ, "PAFJIRN_FOLDER": os.path.abspath(package)}
        pipes = {"stdin": subprocess.PIPE, "stdout": subprocess.PIPE}
        self._process = subprocess.Popen(["node", PLAYER], env=env, **pipes)

    def put(self, path, data):
        self._call("put", path, base64.b64encode(data).decode())

    def remove(self, path):
        self._call("remove", path)

    def run(self, *words):
        """The status, the output and the errors of a run."""
        return types.SimpleNamespace(**self._call("run", *words))

    def _call(self, *given):
        self._process.stdin.write(json.dumps(given).encode() + b"\n")
        self._process.stdin.flush()
        line = self._process.stdout.readline()
        answer = json.loads(line) if line else {"thrown": "the process ended"}
        if "thrown" in answer:
            raise ValueError(answer["thrown"])
        return answer
