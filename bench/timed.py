"""Times commands, as GNU time tells them: each in turn with the others, some rounds long."""

import datetime
import os
import platform
import subprocess
import sys
from dataclasses import dataclass
from pathlib import Path

TOP = Path(__file__).resolve().parent.parent


@dataclass
class Told:
    """What one job took: wall and processor seconds, and memory in bytes; and the bytes that it wrote."""

    wall: float
    processor: float
    memory: int
    written: int = 0

    def row(self, job):
        return f"  {job:26} {self.wall:6.3f} s wall {self.processor:6.3f} s processor {self.memory / 1e6:7.1f} MB"


def program():
    """The program's path. It is built where that is needed."""
    subprocess.run([str(TOP / "jimbaru")], stdout=subprocess.DEVNULL)
    return str(TOP / "crates" / "record_cli" / "out" / "record_cli")


def machine():
    """The date, and what the numbers were taken on."""
    names = [line.split(":")[1].strip() for line in open("/proc/cpuinfo") if line.startswith("model name")]
    name = names[0] if names else platform.machine()
    return f"{datetime.date.today()}, {os.cpu_count()} x {name}, {platform.system()} {platform.release()}"


def run(command, path, statuses=(0,)):
    """Runs a command once. What it writes goes to the file of this path."""
    with open(path, "wb") as out:
        told = subprocess.run(
            ["/usr/bin/time", "-f", "%e %U %S %M"] + command, stdout=out, stderr=subprocess.PIPE, text=True
        )
    if told.returncode not in statuses:
        sys.exit(f"{sys.argv[0]}: {command[0]} ended with {told.returncode}")
    wall, user, system, memory = told.stderr.split("\n")[-2].split()
    return Told(float(wall), float(user) + float(system), int(memory) * 1024, Path(path).stat().st_size)


def measure(jobs, repeats, folder, statuses=(0,)):
    """The least times and the greatest memory of each job."""
    best = {}
    for _ in range(repeats):
        for name, command in jobs.items():
            told = run(command, folder / "out", statuses)
            least = best.setdefault(name, told)
            least.wall = min(least.wall, told.wall)
            least.processor = min(least.processor, told.processor)
            least.memory = max(least.memory, told.memory)
    return best
