#!/usr/bin/env python3
"""Runs programs of examples/ and tests/, and two with many states that are made here, over generated input, beside other
tools that are installed.

  bench/bench.py --kex crates/kex/out/kex            a table: MB/s of processor time, peak memory, and time a byte at 1, 4 and 16 MiB;
                                                     and one of kex alone: run by the wall, test, code, and the start
  bench/bench.py --kex crates/kex/out/kex --check    64 KiB of each: only whether all outputs agree

Inputs are made from a seed, so they are the same each time. MB/s is 10^6 bytes of input by user and system time, the least of the runs.
Read ratios within a row of one run: the machine may be shared. The peers do the same job in the way that a user of the tool would.
"""
import argparse
import hashlib
import os
import random
import shutil
import string
import subprocess
import sys
import tempfile
import time

HERE = os.path.dirname(os.path.abspath(__file__))
FOLDERS = [os.path.join(HERE, "..", it) for it in ("examples", "tests")]
MIB = 1 << 20
LAUNCH = None  # the built launch.c
WORDS = "time year people way day man thing woman life child world school state family student group country problem hand part".split()


def words(r, low, high):
    return " ".join(r.choice(WORDS) for _ in range(r.randint(low, high)))


def csv_swap(r):
    return "%s,%d,%s,%s\n" % (r.choice(WORDS), r.randrange(10**6), r.choice(["", "yes"]), words(r, 1, 4))


def syslog_tsv(r):
    process = "[%d]" % r.randrange(32768) if r.random() < 0.8 else ""
    return "Nov %2d %02d:%02d:%02d web%02d %s%s: %s\n" % (
        r.randint(1, 28), r.randrange(24), r.randrange(60), r.randrange(60), r.randrange(20),
        r.choice(["sshd", "kernel", "cron", "postfix/smtpd"]), process, words(r, 3, 12))


def csv_json(r):
    name = r.choice(WORDS)
    city = r.choice(["London", "Oslo", '"Arlington, VA"', ""])
    remark = r.choice([words(r, 1, 8), '"%s, ""%s"" and"' % (words(r, 1, 3), r.choice(WORDS)), '"%s\n%s"' % (words(r, 1, 2), words(r, 1, 2)), "C:\\x"])
    return "%s,%s,%s\n" % (name, city, remark)


def thousands(r):
    return "%d\n" % r.randrange(10 ** r.randint(1, 14))


def fastq_fasta(r):
    length = r.randint(40, 150)
    bases = "".join(r.choices("ACGTN", k=length))
    marks = "".join(chr(r.randint(33, 73)) for _ in range(length))
    return "@SEQ %d length=%d\n%s\n+\n%s\n" % (r.randrange(10**6), length, bases, marks)


def two_stages(r):
    return words(r, 2, 9) + r.choice(["\n", " \t\r\n", "\n\n", "\n \n\n"])


def many_states(r):
    return "".join(r.choices("ab", k=r.randint(0, 100))) + "\n"


KEYS = ["".join(random.Random(number).choices(string.ascii_letters + string.digits, k=12)) for number in range(400)]


def records(count):
    """A program for records with one of so many keys, and such a record. It has some ten states for each key, and holds nothing back in them."""
    cases = "\n  | ".join('~/%s/ "%d"' % (key, number) for number, key in enumerate(KEYS[:count]))
    program = "main := (key /=[0-9]*\\n/)*\nkey := %s\n" % cases
    return program, lambda r: "%s=%d\n" % (r.choice(KEYS[:count]), r.randrange(1000))


MADE = {"settled_1100": records(108), "settled_4000": records(400)}
WORKLOADS = {f.__name__: f for f in (csv_swap, syslog_tsv, csv_json, thousands, fastq_fasta, two_stages, many_states)}
WORKLOADS.update((name, record) for name, (_, record) in MADE.items())


def program(name, folder):
    """The file of the program of this name; one that is made here is written into the folder."""
    if name in MADE:
        path = os.path.join(folder, name + ".kex")
        with open(path, "w") as out:
            out.write(MADE[name][0])
        return path
    files = [os.path.join(it, name + ".kex") for it in FOLDERS]
    return next(it for it in files if os.path.exists(it))


TOOLS = {
    "mawk": (".awk", ["mawk", "-f"]),
    "gawk": (".awk", ["gawk", "-b", "-f"]),
    "perl": (".pl", ["perl"]),
    "sed": (".sed", ["sed", "-E", "-f"]),
    "ragel": (".rl", None),
}


def make_input(folder, name, size):
    """A file of whole records, of about this many bytes: a block of records, again and again."""
    path = os.path.join(folder, "%s.%d" % (name, size))
    r = random.Random(name)
    block = []
    length = 0
    while length < min(size, MIB):
        record = WORKLOADS[name](r).encode()
        block.append(record)
        length += len(record)
    block = b"".join(block)
    with open(path, "wb") as f:
        for _ in range(max(1, size // MIB)):
            f.write(block)
    return path


def build_ragel(folder, source):
    program = os.path.join(folder, os.path.basename(source)[:-3])
    made = subprocess.run(["ragel", "-G2", "-C", "-o", program + ".c", source], capture_output=True)
    made = made.returncode == 0 and subprocess.run(["cc", "-O2", "-w", "-I", os.path.dirname(source), "-o", program, program + ".c"], capture_output=True)
    return program if made and made.returncode == 0 else None


def peers(folder, name, wanted):
    """The command line of each tool that is installed and has this workload."""
    found = {}
    for tool, (ending, words_before) in TOOLS.items():
        source = os.path.join(HERE, "peers", name + ending)
        if (wanted and tool not in wanted) or not os.path.exists(source) or not shutil.which(tool):
            continue
        if words_before:
            found[tool] = words_before + [source]
        elif shutil.which("cc"):
            program = build_ragel(folder, source)
            if program:
                found[tool] = [program]
    return found


def run(command, source, target):
    """Status, seconds of processor and peak memory in KiB of one run."""
    told = subprocess.run([LAUNCH, source, target] + command, capture_output=True, env=dict(os.environ, LC_ALL="C"))
    status, seconds, peak = told.stdout.split()
    return int(status), float(seconds), int(peak)


def digest(path):
    h = hashlib.sha256()
    with open(path, "rb") as f:
        while piece := f.read(MIB):
            h.update(piece)
    return h.digest()


def best(command, source, target, runs):
    all_runs = [run(command, source, target) for _ in range(runs)]
    return max(r[0] for r in all_runs), max(min(r[1] for r in all_runs), 1e-4), max(r[2] for r in all_runs)


def check(folder, kex, name, wanted):
    """Whether kex and the peers that are here write the same."""
    source = make_input(folder, name, 64 << 10)
    target = os.path.join(folder, "out")
    status, _, _ = run(kex + [program(name, folder)], source, target)
    ours = digest(target)
    good = status == 0
    if not good:
        print("%s: kex ends with status %d" % (name, status))
    for tool, command in peers(folder, name, wanted).items():
        status, _, _ = run(command, source, target)
        if status != 0 or digest(target) != ours:
            print("%s: %s and kex differ" % (name, tool))
            good = False
    return good


def measure(folder, kex, name, wanted, size, runs):
    source = make_input(folder, name, size)
    target = os.path.join(folder, "out")
    length = os.path.getsize(source)
    command = kex + [program(name, folder)]
    status, seconds, peak = best(command, source, target, runs)
    ours = digest(target)
    cells = {"kex": length / 1e6 / seconds if status == 0 else None}
    for tool, peer in peers(folder, name, wanted).items():
        status, other, _ = best(peer, source, target, runs)
        cells[tool] = length / 1e6 / other if status == 0 and digest(target) == ours else None
    per_byte = []
    for mib in (1, 4, 16):
        source = make_input(folder, name, mib * MIB)
        per_byte.append("%.1f" % (best(command, source, os.devnull, runs)[1] * 1e9 / os.path.getsize(source)))
    return cells, peak, per_byte


def rate(command, source, target, runs):
    """MB/s of processor time, if the command ends well."""
    status, seconds, _ = best(command, source, target, runs)
    return "%.0f" % (os.path.getsize(source) / 1e6 / seconds) if status == 0 else ""


def wall_rate(command, source, target, runs):
    """MB/s of the time that passes."""
    passed = []
    for _ in range(runs):
        begun = time.perf_counter()
        run(command, source, target)
        passed.append(time.perf_counter() - begun)
    return "%.0f" % (os.path.getsize(source) / 1e6 / min(passed))


def measure_more(folder, kex, name, size, runs):
    """What kex does beside: run by the time that passes, test and code where there is one stage, and run on no input."""
    source = make_input(folder, name, size)
    path = program(name, folder)
    started = best(kex + ["run", path], os.devnull, os.devnull, runs)[1] * 1e3
    return [
        wall_rate(kex + ["run", path], source, os.devnull, runs),
        rate(kex + ["test", path], source, os.devnull, runs),
        rate(kex + ["code", path], source, os.devnull, runs),
        "%.1f" % started,
    ]


def main():
    parser = argparse.ArgumentParser(description=__doc__, formatter_class=argparse.RawDescriptionHelpFormatter)
    parser.add_argument("--kex", required=True, metavar="PATH", help="the program kex, run as PATH run PROGRAM")
    parser.add_argument("--size", type=int, default=16, metavar="MIB")
    parser.add_argument("--runs", type=int, default=3)
    parser.add_argument("--only", default="", metavar="A,B", help="workloads: " + ", ".join(WORKLOADS))
    parser.add_argument("--tools", default="", metavar="A,B", help="peers: " + ", ".join(TOOLS))
    parser.add_argument("--check", action="store_true", help="only whether outputs agree, on 64 KiB")
    words_given = parser.parse_args()
    bare = [os.path.abspath(words_given.kex)]
    kex = bare + ["run"]
    names = [n for n in words_given.only.split(",") if n] or list(WORKLOADS)
    wanted = [t for t in words_given.tools.split(",") if t]
    if not shutil.which("cc"):
        print("bench: there is no C compiler for launch.c, so nothing was run")
        return 0
    with tempfile.TemporaryDirectory(prefix="kex_bench") as folder:
        global LAUNCH
        LAUNCH = os.path.join(folder, "launch")
        subprocess.run(["cc", "-O2", "-o", LAUNCH, os.path.join(HERE, "launch.c")], check=True)
        if words_given.check:
            results = [check(folder, kex, name, wanted) for name in names]
            print("bench: %d passed, %d failed" % (sum(results), len(results) - sum(results)))
            return 0 if all(results) else 1
        tools = [t for t in TOOLS if shutil.which(t) and (not wanted or t in wanted)]
        print("| workload, MB/s over %d MiB | kex | %s | kex's peak, KiB | ns a byte at 1, 4, 16 MiB |" % (words_given.size, " | ".join(tools)))
        print("|---|" + "---:|" * (len(tools) + 3))
        for name in names:
            cells, peak, per_byte = measure(folder, kex, name, wanted, words_given.size * MIB, words_given.runs)
            row = ["" if t not in cells else "differs" if cells[t] is None else "%.0f" % cells[t] for t in ["kex"] + tools]
            print("| %s | %s | %d | %s |" % (name, " | ".join(row), peak, ", ".join(per_byte)), flush=True)
        print("\n| kex over %d MiB | run, MB/s by the wall | test, MB/s | code, MB/s | start, ms |" % words_given.size)
        print("|---|" + "---:|" * 4)
        for name in names:
            print("| %s | %s |" % (name, " | ".join(measure_more(folder, bare, name, words_given.size * MIB, words_given.runs))), flush=True)
    return 0


if __name__ == "__main__":
    sys.exit(main())
