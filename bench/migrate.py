#!/usr/bin/env python3
"""Measures `migrate`: a store of the old format is moved into a new file, then a server opens that file, then dd writes
the same bytes and syncs them once. In rounds, each beside the others.

  bench/migrate.py PROGRAM [--statements N] [--rounds R] [--folder FOLDER]

PROGRAM is a built program (crates/kilnlime/out/kilnlime). N is 1,000,000 if it isn't said: statements of 800 bytes, 0.8 GB.
R is 3. FOLDER is on the disk to be measured (default: that of temporary files); it takes four times the store. Prints a
line for each round, and below them the goals with the best round of each. The new file is compared with one that
make_store.py writes in the new format: the status is 1 if they differ. Takes four minutes or so."""
import argparse
import filecmp
import os
import pathlib
import re
import subprocess
import sys
import tempfile
import time

HERE = pathlib.Path(__file__).resolve().parent
LIMIT = 1_073_741_824
SLOWEST = 1.25
LEAST_RATE = 0.5
MOST_MEMORY = 2


def make_store(name, number, version):
    words = [HERE / "make_store.py", name, number, "--format", version, "--limit", LIMIT]
    subprocess.run([str(word) for word in words], check=True)


def migrate(program, number):
    """The seconds of a migration, and its peak memory in MiB."""
    pathlib.Path("new").unlink(missing_ok=True)
    start = time.monotonic()
    process = subprocess.Popen([program, "migrate", "old", "new"], stdin=subprocess.DEVNULL, stdout=subprocess.PIPE)
    line = process.stdout.read().decode()
    _, status, used = os.wait4(process.pid, 0)
    seconds = time.monotonic() - start
    process.returncode = os.waitstatus_to_exitcode(status)
    if (process.returncode, line) != (0, f"migrated {number + 1}\n"):
        sys.exit(f"migrate printed {line!r} and ended with status {process.returncode}")
    return seconds, used.ru_maxrss / 1024


def opening(program):
    """The seconds until a server listens, and its peak memory in MiB."""
    words = [program, "serve", "new", "127.0.0.1:0", "--workers", "1", "--connections", "1"]
    start = time.monotonic()
    process = subprocess.Popen(words, stdin=subprocess.DEVNULL, stdout=subprocess.DEVNULL, stderr=subprocess.PIPE)
    try:
        line = process.stderr.readline().decode()
        seconds = time.monotonic() - start
        if not line.startswith("listening on "):
            sys.exit(f"the server said {line!r}")
        status = pathlib.Path(f"/proc/{process.pid}/status").read_text()
        return seconds, int(re.search(r"VmHWM:\s*(\d+)", status)[1]) / 1024
    finally:
        process.kill()
        process.wait()


def written():
    """The seconds in which dd writes the new file's bytes, with one sync."""
    pathlib.Path("copy").unlink(missing_ok=True)
    start = time.monotonic()
    subprocess.run(["dd", "if=new", "of=copy", "bs=1M", "conv=fsync", "status=none"], check=True)
    seconds = time.monotonic() - start
    os.remove("copy")
    return seconds


def told(goal, value, unit, reached):
    print(f"  {goal}: {value:.2f}{unit}, {'reached' if reached else 'missed'}")


def measure(program, number, rounds):
    make_store("old", number, 1)
    size = os.path.getsize("old") / 1e6
    print(f"{number:,} statements, {size:,.0f} MB in the old format")
    ratios, rates, memories = [], [], []
    for turn in range(rounds):
        moved, moved_memory = migrate(program, number)
        opened, opened_memory = opening(program)
        copied = written()
        new = os.path.getsize("new") / 1e6
        over = max(moved - opened, 1e-9)
        ratios.append(moved / opened)
        rates.append(copied / over)
        memories.append(moved_memory - opened_memory)
        print(f"  round {turn + 1}: migrate {moved:.2f} s and {moved_memory:,.0f} MiB, the opening of the result {opened:.2f} s "
              f"and {opened_memory:,.0f} MiB; over the opening {moved - opened:.2f} s, {new / over:,.0f} MB/s; "
              f"dd {copied:.2f} s, {new / copied:,.0f} MB/s", flush=True)
    print("goals, best of the rounds")
    told(f"migrate, of the opening, at most {SLOWEST}", min(ratios), "", min(ratios) <= SLOWEST)
    told(f"its rate over the opening, of dd's, at least {LEAST_RATE}", max(rates), "", max(rates) >= LEAST_RATE)
    told(f"its peak memory over the opening's, at most {MOST_MEMORY} MiB", min(memories), " MiB", min(memories) <= MOST_MEMORY)
    make_store("wanted", number, 2)
    return filecmp.cmp("new", "wanted", shallow=False)


def main():
    parser = argparse.ArgumentParser(description=__doc__, formatter_class=argparse.RawDescriptionHelpFormatter)
    parser.add_argument("program")
    parser.add_argument("--statements", type=int, default=1_000_000)
    parser.add_argument("--rounds", type=int, default=3)
    parser.add_argument("--folder", default=None)
    given = parser.parse_args()
    program = os.path.abspath(given.program)
    with tempfile.TemporaryDirectory(dir=given.folder) as name:
        os.chdir(name)
        same = measure(program, given.statements, given.rounds)
        os.chdir("/")
    print("the new file is the one that make_store.py writes" if same else "the new file differs from make_store.py's")
    sys.exit(0 if same else 1)


if __name__ == "__main__":
    main()
