#!/usr/bin/env python3
"""Runs a program of kex over the parts of a file, on the workers of a Dask cluster, and joins the output.

  dask_parts.py CLUSTER PROGRAM INPUT OUTPUT [PART_BYTES]

CLUSTER is the scheduler's address, as tcp://host:8786, or the file that it writes (--scheduler-file). Parts have
about PART_BYTES bytes (10,000,000) and end after a line feed. Each worker needs kex on its path, and sees PROGRAM,
INPUT and the folder of OUTPUT under the same names, as by a shared file system.

The answer is that of one run. Where a part is rejected the output ends there, the note names the byte of the whole
input, and the status is that of its run. (A byte of a later stage is counted in the part.)
"""
import os
import re
import subprocess
import sys

from distributed import Client

BLOCK = 1 << 20


def cuts(path, size):
    """The parts of a file as pairs of bytes, from and to: each ends after a line feed or with the file."""
    whole = os.path.getsize(path)
    with open(path, "rb") as file:
        start = 0
        while start < whole:
            end = min(start + size, whole)
            if end < whole:
                file.seek(end - 1)
                file.readline()
                end = file.tell()
            yield start, end
            start = end


def send(path, start, end, pipe):
    """Writes the bytes of a part to a pipe. A run that has stopped early says why by itself."""
    try:
        with open(path, "rb") as file:
            file.seek(start)
            while start < end:
                block = file.read(min(end - start, BLOCK))
                pipe.write(block)
                start += len(block)
        pipe.close()
    except BrokenPipeError:
        pass


def run(program, path, start, end, output):
    """One run over one part, on a worker: its status and its note. What it writes goes to a file."""
    with open(output, "wb") as sink:
        words = ["kex", "run", program]
        kex = subprocess.Popen(words, stdin=subprocess.PIPE, stdout=sink, stderr=subprocess.PIPE)
        send(path, start, end, kex.stdin)
        note = kex.stderr.read().decode(errors="replace").strip()
        return kex.wait(), note


def append(path, whole):
    """Adds a part's output to the whole."""
    with open(path, "rb") as part:
        while block := part.read(BLOCK):
            whole.write(block)


def of_the_whole(note, start):
    """A note with its byte counted in the whole input, where it is one of the first stage."""
    found = re.fullmatch(r"(.* stage 1 at byte )([0-9]+)(.*)", note)
    return f"{found[1]}{start + int(found[2])}{found[3]}" if found else note


def main():
    if len(sys.argv) not in (5, 6):
        sys.exit(__doc__)
    cluster, program, path, output = sys.argv[1:5]
    size = int(sys.argv[5]) if len(sys.argv) == 6 else 10_000_000
    program, path, output = map(os.path.abspath, (program, path, output))
    how = {"address": cluster} if "://" in cluster else {"scheduler_file": cluster}
    with Client(timeout=60, **how) as client:
        parts = [(*cut, f"{output}.part{n:06}") for n, cut in enumerate(cuts(path, size))]
        runs = [client.submit(run, program, path, *part, pure=False) for part in parts]
        try:
            with open(output, "wb") as whole:
                for (start, _, part), answer in zip(parts, runs):
                    status, note = answer.result()
                    append(part, whole)
                    if status:
                        print(of_the_whole(note, start), file=sys.stderr)
                        return status
        finally:
            client.cancel(runs)
            for _, _, part in parts:
                if os.path.exists(part):
                    os.remove(part)
    return 0


if __name__ == "__main__":
    sys.exit(main())
