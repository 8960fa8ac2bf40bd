"""What the scripts of this folder share: the best of nine runs of a command, and a yardstick of the same machine and hour.

The yardstick is C by hand (`flows.c`) that reads a million rows of one sensor, digit by digit, and writes a row for each. A time
says little on another machine; how many times the yardstick it is says more.
"""

import os
import subprocess
import sys
import time
from typing import NamedTuple

HERE = os.path.dirname(os.path.abspath(__file__))
RUNS, ROWS = 9, 1_000_000


class Run(NamedTuple):
    """A run: the seconds of a processor and of the clock on the wall, the peak memory in MB, the status, and what it told first on err."""

    busy: float
    seconds: float
    peak: float
    status: int
    told: str = ""


class Bench:
    """Runs commands in a folder of work, and tells of each beside the yardstick."""

    def __init__(self, program, work):
        self.program, self.work, self.past = program, work, False
        for name in ("measured", "flows"):
            subprocess.run(["gcc", "-O2", "-o", f"{work}/{name}", f"{HERE}/{name}.c"], check=True)
        with open(f"{work}/yardstick.csv", "w") as rows:
            rows.writelines(f"i,{m},{m % 1000}\n" for m in range(ROWS))
        self.yardstick = self.best([f"{work}/flows", f"{work}/yardstick.csv", str(10 * ROWS)])
        print(f"the yardstick, C on {ROWS} rows: {self.yardstick.busy:.3f} s of a processor, {self.yardstick.peak:.0f} MB", flush=True)

    def once(self, command, out):
        with open(f"{self.work}/{out}", "wb") as written, open(f"{self.work}/err.txt", "wb") as told:
            start = time.monotonic()
            subprocess.run([f"{self.work}/measured", f"{self.work}/report", *command], stdout=written, stderr=told, check=True)
            seconds = time.monotonic() - start
        with open(f"{self.work}/report") as report:
            busy, peak, status = report.read().split()
        with open(f"{self.work}/err.txt") as told:
            return Run(float(busy), seconds, int(peak) / 1024, int(status), told.readline().strip())

    def best(self, command, out="out.txt", by="busy"):
        """The best of nine runs, by the time of a processor, or by that on the wall."""
        return min((self.once(command, out) for _ in range(RUNS)), key=lambda run: getattr(run, by))

    def run(self, what, words, out="out.txt", by="busy", wanted=0, bound=None):
        """Runs the program with these words and tells of it; `wanted` is its status, None where any is; `bound` is the most that
        it may take, in yardsticks and in MB."""
        run = self.best([self.program, *words], out, by)
        took, size = getattr(run, by) / self.yardstick.busy, os.path.getsize(f"{self.work}/{out}")
        told = f", '{run.told}'" if run.told else ""
        holds = wanted in (None, run.status) and (bound is None or took <= bound[0] and run.peak <= bound[1])
        self.tell(f"{what}: {took:.2f} times the yardstick, {run.peak:.0f} MB, {size} bytes written, status {run.status}{told}", holds)
        return run

    def tell(self, line, holds=True):
        self.past = self.past or not holds
        print(line + ("" if holds else ", which is not as it is to be"), flush=True)

    def end(self):
        sys.exit(1 if self.past else 0)
