"""Runs the proved program once and prints how long that took for each line or act.

usage: timed.py PROGRAM HOSTS SCRIPT COUNT UNIT
"""
import os
import resource
import subprocess
import sys
import time

program, hosts, script, count, unit = sys.argv[1:]
start = time.monotonic()
with open(os.devnull, "w") as nothing:
    subprocess.run([program, "run", hosts, script], stdout=nothing, check=True)
wall = time.monotonic() - start
size = os.path.getsize(script) / 2**20
memory = resource.getrusage(resource.RUSAGE_CHILDREN).ru_maxrss / 1024
print(
    f"{count:>8} {unit}s  {size:6.1f} MiB of script  {wall:6.2f} s  "
    f"{1e9 * wall / int(count):7.0f} ns for each {unit}  {memory:6.1f} MiB of memory at most"
)
