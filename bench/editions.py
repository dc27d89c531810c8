#!/usr/bin/env python3
"""Measures what editions cost over three stores: one course, N editions of one course, and N courses. First enrolments
and GETs of a registration, with courses of one unit: the processor time of the server for each, of servers that are
asked in turn. Then, with courses of 20 kB, in alternating rounds, the processor time of an opening and the memory that
the server then takes, each by the bytes of the file.

  bench/editions.py NAME=PROGRAM .. [--number N] [--rounds R] [--folder FOLDER]

PROGRAM is a built program (crates/kilnlime/out/kilnlime). One of before editions has no store of N editions. N is 10,000
and R is 3 if they aren't said; with 0 nothing is opened. FOLDER has room for twice N times 20 kB (default: that of
temporary files). Prints the median of each figure, and its least and its greatest. Takes a minute for each round."""
import argparse
import contextlib
import http.client
import json
import os
import pathlib
import random
import re
import shutil
import statistics
import subprocess
import sys
import tempfile

sys.dont_write_bytecode = True
import workers

# how many requests of a kind are asked at a time, and how often
BLOCK = 50
BLOCKS = 21
# of a course of 20 kB
UNITS = 87
LIMIT = 1_073_741_824
ACTOR = {"account": {"homePage": "https://l.invalid", "name": "k1"}}


def processor_time(pid):
    """The seconds that all threads of a process have worked."""
    tasks = pathlib.Path(f"/proc/{pid}/task").glob("*/schedstat")
    return sum(int(task.read_text().split()[0]) for task in tasks) / 1e9


class Client:
    """Requests over connections that are opened anew for each block, since the server closes idle ones."""

    def __init__(self, port):
        self.port, self.link = port, None

    def connect(self):
        if self.link is not None:
            self.link.close()
        self.link = http.client.HTTPConnection("127.0.0.1", self.port)

    def ask(self, method, path, body=None):
        self.link.request(method, path, None if body is None else json.dumps(body), workers.FIELDS)
        response = self.link.getresponse()
        answer = response.read()
        if response.status != 200:
            sys.exit(f"{method} {path} is answered {response.status} {answer.decode()}")
        return json.loads(answer)


class Asked:
    """A server over a copy of a store of small courses, and what each request takes of the processor, in microseconds."""

    def __init__(self, server, courses, editions, knows):
        self.server, self.courses, self.editions, self.knows = server, courses, editions, knows
        self.client, self.source, self.registrations = Client(server.port), random.Random(1), []

    def enrol(self, **edition):
        course = f"http://c.invalid/{self.source.randrange(self.courses)}"
        answer = self.client.ask("POST", "/desk/registrations", {"course": course, "actor": ACTOR, **edition})
        self.registrations.append(answer["registration"])

    def name_edition(self):
        self.enrol(edition=self.source.randint(1, self.editions))

    def look(self):
        self.client.ask("GET", f"/desk/registrations/{self.source.choice(self.registrations)}")

    def each(self, call):
        before = processor_time(self.server.pid)
        for _ in range(BLOCK):
            call()
        return (processor_time(self.server.pid) - before) / BLOCK * 1e6

    def block(self):
        self.client.connect()
        yield "an enrolment", self.each(self.enrol)
        if self.knows:
            yield "an enrolment that names an edition", self.each(self.name_edition)
        yield "a GET of a registration", self.each(self.look)


def ask_all(cases, blocks, told):
    """Asks the servers of all cases in turn, some requests each time."""
    with contextlib.ExitStack() as stack:
        servers = []
        for name, program, kind, courses, editions, knows in cases:
            copy = f"{name}, asked"
            shutil.copyfile(f"{kind}, small", copy)
            server = stack.enter_context(workers.serving(program, copy, 1))
            servers.append((name, Asked(server, courses, editions, knows)))
        for turn in range(blocks):
            for which in range(len(servers)):
                name, server = servers[(turn + which) % len(servers)]
                for what, value in server.block():
                    told.setdefault(what, {}).setdefault(name, []).append(value)


def opened(program, store):
    """Nanoseconds of an opening and bytes of memory, by the bytes of the file."""
    size = os.path.getsize(store)
    with workers.serving(program, store, 1) as server:
        status = pathlib.Path(f"/proc/{server.pid}/status").read_text()
        resident = int(re.search(r"VmRSS:\s*(\d+)", status)[1]) * 1024
        yield "an opening, nanoseconds a byte", processor_time(server.pid) / size * 1e9
        yield "memory, bytes a byte", resident / size


def figure(value):
    return f"{value:,.0f}" if value >= 100 else f"{value:.2f}"


def make_store(name, courses, editions, units):
    words = ["--courses", courses, "--editions", editions, "--units", units, "--limit", LIMIT]
    workers.run(workers.HERE / "make_store.py", name, 0, *words)


def knows_editions(program):
    """Whether it opens a store of two editions of a course."""
    make_store("two", 1, 2, 1)
    told = subprocess.run([program, "intake", "two"], stdin=subprocess.DEVNULL, capture_output=True, text=True)
    return not told.stdout.startswith("damaged")


def main():
    parser = argparse.ArgumentParser(description=__doc__, formatter_class=argparse.RawDescriptionHelpFormatter)
    parser.add_argument("programs", nargs="+")
    parser.add_argument("--number", type=int, default=10_000)
    parser.add_argument("--rounds", type=int, default=3)
    parser.add_argument("--folder", default=None)
    given = parser.parse_args()
    programs = [(name, os.path.abspath(program)) for name, _, program in (word.partition("=") for word in given.programs)]
    kinds = [("one course", 1, 1), ("editions of one course", 1, given.number), ("courses", given.number, 1)]
    told = {}
    with tempfile.TemporaryDirectory(dir=given.folder) as folder:
        os.chdir(folder)
        for kind, courses, editions in kinds:
            make_store(f"{kind}, small", courses, editions, 1)
        cases = []
        for version, program in programs:
            knows = knows_editions(program)
            cases += [(f"{version}, {kind}", program, kind, courses, editions, knows)
                      for kind, courses, editions in kinds if editions == 1 or knows]
        ask_all(cases, BLOCKS, told)
        show(told)
        told = {}
        for kind, courses, editions in kinds[1:] if given.rounds else []:
            make_store(f"{kind}, large", courses, editions, UNITS)
        for turn in range(given.rounds):
            for which in range(len(cases)):
                name, program, kind, courses, editions, _ = cases[(turn + which) % len(cases)]
                if courses * editions > 1:
                    for what, value in opened(program, f"{kind}, large"):
                        told.setdefault(what, {}).setdefault(name, []).append(value)
        show(told)
        os.chdir("/")


def show(told):
    for what, values in told.items():
        print(what)
        for name, rounds in values.items():
            print(f"  {name}: {figure(statistics.median(rounds))} ({figure(min(rounds))} to {figure(max(rounds))})", flush=True)


if __name__ == "__main__":
    main()
