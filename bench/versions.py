#!/usr/bin/env python3
"""Compares versions of the program in alternating rounds, each with one worker and one client: durable PUTs beside the
six calls of the disk, statements in batches of 100, GETs by id, pages of 100 by a verb, the time of the processor that
opening a store of 100,000 statements takes, and the memory that it then takes.

  bench/versions.py NAME=PROGRAM .. [--folder FOLDER] [--rounds R]

PROGRAM is a built program (crates/kilnlime/out/kilnlime). FOLDER is on the disk to be measured (default: that of temporary
files). R is 5 if it isn't said. Each program opens a store of the format that it writes. Prints the median of each
figure, and its least and its greatest. Takes half a minute for each program and round; needs cc. What the environment
says to the C library holds for all of them."""
import argparse
import os
import pathlib
import statistics
import tempfile

import workers

BATCHES = 400
OPENED = 100_000


def stored(program):
    """A store of `OPENED` statements in the format that the program writes, made when it is first asked for."""
    version = workers.format_of(workers.new_store(program))
    store = f"opened-{version}"
    if not os.path.exists(store):
        words = ["--format", version, "--limit", 1_073_741_824]
        workers.run(workers.HERE / "make_store.py", store, OPENED, *words)
    return store


def opened(program, store):
    """How long the processor works to open the store, in its own lines and the system's, and the memory that the server
    then takes, in MB."""
    with workers.serving(program, store, 1) as server:
        status = pathlib.Path(f"/proc/{server.pid}/status").read_text()
        resident = next(line for line in status.splitlines() if line.startswith("VmRSS"))
        return sum(workers.processor_time(server.pid)), int(resident.split()[1]) / 1024


def one_round(program):
    rate, size = workers.puts(program, 1, 1)
    yield "PUTs a second", rate
    yield "PUTs, of the six calls", rate / workers.six_calls(size)
    with workers.serving(program, workers.new_store(program), 1) as server:
        before = workers.processor_time(server.pid)
        yield "statements a second in batches of 100", workers.asked(server.port, "post", 0, BATCHES, 1)
        own, system = (now - then for now, then in zip(workers.processor_time(server.pid), before))
        yield "a statement of a batch, own code, in microseconds", own / BATCHES * 1e4
        yield "the same, in the system", system / BATCHES * 1e4
        yield "GETs by id a second", workers.asked(server.port, "get", workers.HELD, workers.GETS, 1)
    store = stored(program)
    seconds, resident = opened(program, store)
    yield "opened, seconds of the processor", seconds
    yield "opened, MB", resident
    with workers.serving(program, store, 1) as server:
        path = f"/xapi/statements?verb={workers.VERB}&limit=100"
        yield "pages of 100 by a verb, a second", workers.asked(server.port, "path", path, workers.PAGES, 1)


def figure(value):
    return f"{value:,.0f}" if value >= 100 else f"{value:.2f}"


def main():
    parser = argparse.ArgumentParser(description=__doc__, formatter_class=argparse.RawDescriptionHelpFormatter)
    parser.add_argument("programs", nargs="+")
    parser.add_argument("--folder", default=None)
    parser.add_argument("--rounds", type=int, default=5)
    given = parser.parse_args()
    programs = [(name, os.path.abspath(program)) for name, _, program in (word.partition("=") for word in given.programs)]
    told = {}
    with tempfile.TemporaryDirectory(dir=given.folder) as name:
        os.chdir(name)
        for source in ("requests", "six_calls"):
            workers.run("cc", "-O2", "-D_GNU_SOURCE", "-pthread", "-o", source, workers.HERE / f"{source}.c")
        for turn in range(given.rounds):
            for which in range(len(programs)):
                version, program = programs[(turn + which) % len(programs)]
                for what, value in one_round(program):
                    told.setdefault(what, {}).setdefault(version, []).append(value)
        os.chdir("/")
    for what, values in told.items():
        print(what)
        for version, _ in programs:
            rounds = values[version]
            print(f"  {version}: {figure(statistics.median(rounds))} ({figure(min(rounds))} to {figure(max(rounds))})")


if __name__ == "__main__":
    main()
