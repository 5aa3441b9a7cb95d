"""Runs a command whose standard output is a pipe that nobody reads; it has to end by itself with status 2 and say so."""
import os
import subprocess
import sys

read_end, write_end = os.pipe()
os.close(read_end)
done = subprocess.run(sys.argv[1:], stdout=write_end, stderr=subprocess.PIPE, check=False)
os.close(write_end)
if done.returncode != 2 or b"standard output" not in done.stderr:
    sys.exit(f"status {done.returncode}, {done.stderr!r}")
