"""Counts the checks of tools/check-wasm."""

import re

COUNTED = re.compile(r"^(\d+) passed, (\d+) failed\s*\Z", re.MULTILINE)


class Counts:
    """How many checks passed, failed and were skipped."""

    def __init__(self):
        self.passed = self.failed = self.skipped = 0

    def add(self, is_right, what):
        """Counts a check, and says what is wrong."""
        self.passed += bool(is_right)
        self.failed += not is_right
        if not is_right:
            print("check-wasm: " + what, flush=True)

    def add_many(self, passed, failed):
        """Counts checks of which each failure was said before."""
        self.passed += passed
        self.failed += failed

    def skip(self, what, tool):
        """Counts a part that needs a tool which isn't installed."""
        self.skipped += 1
        print(f"check-wasm: {what} is skipped, since {tool} isn't installed", flush=True)

    def add_run(self, name, ran):
        """Counts the checks of a run whose last line says how many passed and failed, and prints its other
        lines."""
        status, out, said = ran
        out, said = (it.decode(errors="replace") for it in (out, said))
        found = COUNTED.search(out)
        self.passed += int(found[1]) if found else 0
        self.failed += max(int(found[2]), int(status != 0)) if found else 1
        # (the gate counts each line of counts that it finds)
        for line in (out[: found.start()] if found else out).splitlines() + said.splitlines():
            print(f"{name}: {line}", flush=True)
        if not found or status:
            print(f"check-wasm: {name} ends with status {status}", flush=True)

    def line(self):
        return f"{self.passed} passed, {self.failed} failed, {self.skipped} skipped"
