#!/usr/bin/env python3
"""Measures what several workers bring: durable PUTs by many connections beside the six calls of the disk and a server
that makes them and looks at nothing, GETs by id and pages by a verb over one worker and over several, pages beside
PostgreSQL if it is installed, what a page takes of the processor, and how long GETs take beside a client that never
ceases to write. Last stands what one client gets of one worker, also of an older program if its path is given.

  bench/workers.py PROGRAM [--folder FOLDER] [--workers W] [--before OLDER]

PROGRAM and OLDER are built programs (crates/kilnlime/out/kilnlime). FOLDER is on the disk to be measured (default: that of
temporary files). W is 4 if it isn't said. Takes two minutes or so; needs cc. Each figure is the best of three rounds, since
other work on the machine only takes away.
"""
import argparse
import contextlib
import http.client
import os
import pathlib
import pwd
import shutil
import signal
import socket
import subprocess
import sys
import tempfile
import time
import typing

HERE = pathlib.Path(__file__).resolve().parent
TOKEN = "adminadmin"
FIELDS = {"X-Experience-API-Version": "1.0.3", "Authorization": "Basic " + TOKEN}
ROUNDS = 3
PUTS = 4000
GETS = 40_000
PAGES = 4000
HELD = 10_000
HELD_OF_PAGES = 100_000
# the bytes of a frame before its payload, by the version of the format
FRAME_HEADS = {1: 5, 2: 13}
VERB = "http://v.invalid/3"
NO_VERB = "http://v.invalid/none"
SECONDS = 10


def run(*words, **more):
    return subprocess.run([str(word) for word in words], check=True, capture_output=True, text=True, **more).stdout


def free_port():
    with socket.socket() as free:
        free.bind(("127.0.0.1", 0))
        return free.getsockname()[1]


def await_port(process, port):
    while True:
        with contextlib.suppress(OSError):
            socket.create_connection(("127.0.0.1", port)).close()
            return
        if process.poll() is not None:
            sys.exit(f"the server ended with status {process.returncode}")
        time.sleep(0.01)


class Server(typing.NamedTuple):
    port: int
    pid: int


@contextlib.contextmanager
def serving(program, store, workers):
    """A server over the store, which is killed in the end."""
    port = free_port()
    words = [program, "serve", store, f"127.0.0.1:{port}", "--workers", str(workers), "--connections", "10000"]
    nothing = subprocess.DEVNULL
    process = subprocess.Popen(words, stdin=nothing, stdout=nothing, stderr=nothing)
    try:
        await_port(process, port)
        yield Server(port, process.pid)
    finally:
        process.kill()
        process.wait()


def new_store(program):
    with contextlib.suppress(FileNotFoundError):
        os.remove("store")
    run(program, "init", "store", "--admin", TOKEN, "--limit", 1_073_741_824)
    return "store"


def format_of(store):
    """The version of a store's format."""
    with open(store, "rb") as file:
        return file.read(9)[8]


def asked(port, mode, path, number, clients):
    """So many requests by so many clients at once: how many are answered a second."""
    return int(run("./requests", port, mode, path, number // clients, TOKEN, 1, clients))


def best(measured):
    return max(measured() for _ in range(ROUNDS))


def puts(program, workers, clients):
    """The rate of PUTs, and the bytes of their entries."""
    store = new_store(program)
    before = os.path.getsize(store)
    with serving(program, store, workers) as server:
        rate = asked(server.port, "put", 0, PUTS, clients)
    return rate, (os.path.getsize(store) - before) // PUTS - FRAME_HEADS[format_of(store)]


def six_calls(size):
    return int(run("./six_calls", "plain", PUTS, size).split()[0])


def bare_turns(workers, clients, size):
    """The rate of a server that takes turns, makes the six calls and looks at nothing."""
    port = free_port()
    process = subprocess.Popen(["./bare_server", "plain", str(port), "10000", str(size), str(workers)])
    try:
        await_port(process, port)
        return asked(port, "put", 0, PUTS, clients)
    finally:
        process.kill()
        process.wait()


def measure_puts(program, workers):
    print("durable PUTs of one statement, a second, the six calls alone, and a server that takes turns and looks at nothing")
    for clients in (4, 16):
        shares = []
        for _ in range(ROUNDS):
            rate, size = puts(program, workers, clients)
            calls = six_calls(size)
            shares.append((rate / calls, rate, calls, bare_turns(workers, clients, size)))
        share, rate, calls, bare = max(shares)
        print(f"  {clients} connections, {workers} workers: {rate:,}, {calls:,}, so {share:.2f}; {bare:,}", flush=True)


def with_statements(program, number):
    store = new_store(program)
    with serving(program, store, 1) as server:
        asked(server.port, "post", 0, number // 100, 1)
    return store


def measure_gets(program, workers):
    print(f"GETs by id over {HELD:,} statements, {workers} clients, a second")
    store = with_statements(program, HELD)
    rates = []
    for number in (1, workers):
        with serving(program, store, number) as server:
            rates.append(best(lambda: asked(server.port, "get", HELD, GETS, workers)))
    print(f"  1 worker {rates[0]:,}, {workers} workers {rates[1]:,}: {rates[1] / rates[0]:.2f} times", flush=True)


class Postgres:
    """PostgreSQL over the same statements: a table with an index of the verb and the place, asked by its own client."""

    def __init__(self, folder, rows):
        self.data = folder / "pg"
        self.data.mkdir()
        folder.chmod(0o711)
        self.user = {}
        if os.geteuid() == 0:
            other = pwd.getpwnam("postgres")
            os.chown(self.data, other.pw_uid, other.pw_gid)
            self.user = {"user": other.pw_uid, "group": other.pw_gid, "extra_groups": [], "env": {**os.environ, "HOME": "/tmp"}}
        run("initdb", "-D", self.data, "-U", "bench", cwd=self.data, **self.user)
        socket_only = f"-k {self.data} -c listen_addresses="
        # it keeps what it is given as output open
        words = ["pg_ctl", "-D", str(self.data), "-w", "-l", str(self.data / "log"), "-o", socket_only, "start"]
        nothing = subprocess.DEVNULL
        subprocess.run(words, check=True, stdout=nothing, stderr=nothing, cwd=self.data, **self.user)
        made = (
            "create table statements (place bigint primary key, verb text, agent text, registration text, body text);\n"
            f"\\copy statements from '{rows}'\n"
            "create index on statements (verb, place desc);\nvacuum analyze statements;\n"
        )
        run("psql", "-q", "-h", self.data, "-U", "bench", "-d", "postgres", input=made)

    def pages(self, clients):
        question = f"select body from statements where verb = '{VERB}' order by place desc limit 100;\n"
        pathlib.Path("page.sql").write_text(question)
        words = ["pgbench", "-h", self.data, "-U", "bench", "-n", "-M", "prepared", "-f", "page.sql", "-c", clients]
        told = run(*words, "-j", clients, "-T", 3, "postgres")
        return int(float(next(line for line in told.splitlines() if line.startswith("tps = ")).split()[2]))

    def stop(self):
        run("pg_ctl", "-D", self.data, "-m", "immediate", "stop", cwd=self.data, **self.user)


def measure_pages(program, workers, folder):
    print(f"pages of 100 by a verb that one in seven of {HELD_OF_PAGES:,} statements has, {workers} clients, a second")
    run(HERE / "make_store.py", "store", HELD_OF_PAGES, "--limit", 1_073_741_824, "--table", folder / "rows")
    path = f"/xapi/statements?verb={VERB}&limit=100"
    rates = []
    for number in (1, workers):
        with serving(program, "store", number) as server:
            rates.append(best(lambda: asked(server.port, "path", path, PAGES, workers)))
    print(f"  1 worker {rates[0]:,}, {workers} workers {rates[1]:,}", flush=True)
    if all(shutil.which(name) for name in ("initdb", "pg_ctl", "psql", "pgbench")):
        postgres = Postgres(folder, folder / "rows")
        try:
            print(f"  PostgreSQL {best(lambda: postgres.pages(workers)):,}", flush=True)
        finally:
            postgres.stop()


def processor_time(pid):
    """How long the processor has worked for a process: on its own lines, and on the system's."""
    fields = pathlib.Path(f"/proc/{pid}/stat").read_text().rpartition(")")[2].split()
    return [int(field) / os.sysconf("SC_CLK_TCK") for field in fields[11:13]]


def cost_of_page(server, verb):
    """What one page by this verb takes of the server's processor, in microseconds."""
    path = f"/xapi/statements?verb={verb}&limit=100"
    before = processor_time(server.pid)
    asked(server.port, "path", path, PAGES, 1)
    return [(now - then) / PAGES * 1e6 for now, then in zip(processor_time(server.pid), before)]


def measure_cost(program):
    """Over the store of `measure_pages`. Reading a request and writing its response are outside the turn. So what a page
    costs the others is less than the time of the server's own lines."""
    print("what a page takes of the processor, one client and one worker, in microseconds: the server's lines, the system's")
    with serving(program, "store", 1) as server:
        for what, verb in (("100 statements", VERB), ("none", NO_VERB)):
            own, system = min(cost_of_page(server, verb) for _ in range(ROUNDS))
            print(f"  a page of {what}: {own:.0f}, {system:.0f}", flush=True)


def times_of_gets(port, seconds):
    """How long each GET took, of one client that asks one after the other. The connection's first isn't counted."""
    taken = []
    end = time.monotonic() + seconds
    number = 0
    while time.monotonic() < end:
        connection = http.client.HTTPConnection("127.0.0.1", port, timeout=60)
        for place in range(1000):
            number += 1
            path = f"/xapi/statements?statementId={number * 7919 % HELD:08x}-1111-4111-8111-111111111111"
            began = time.monotonic()
            connection.request("GET", path, headers=FIELDS)
            response = connection.getresponse()
            response.read()
            if response.status != 200:
                sys.exit(f"{path}: {response.status}")
            if place > 0:
                taken.append(time.monotonic() - began)
            if time.monotonic() >= end:
                break
        connection.close()
    return sorted(taken)


@contextlib.contextmanager
def writing(port, store, mode, first, number):
    """A client that sends so many PUTs or batches, one after the other. It is at work when this is entered."""
    before = os.path.getsize(store)
    words = ["./requests", str(port), mode, str(first), str(number), TOKEN, "1"]
    writer = subprocess.Popen(words, stdout=subprocess.DEVNULL, start_new_session=True)
    try:
        while os.path.getsize(store) == before and writer.poll() is None:
            time.sleep(0.01)
        yield
        if writer.poll() is not None:
            print("  the client that writes ended before the other one: this figure says less")
    finally:
        with contextlib.suppress(ProcessLookupError):
            os.killpg(writer.pid, signal.SIGKILL)
        writer.wait()


def measure_times(program, workers):
    print(f"how long a GET by id takes, over {HELD:,} statements and {workers} workers, in ms")
    store = with_statements(program, HELD)
    with serving(program, store, workers) as server:
        told = {"alone": times_of_gets(server.port, SECONDS)}
        with writing(server.port, store, "put", 1_000_000, 100_000):
            told["beside a client that never ceases to send PUTs"] = times_of_gets(server.port, SECONDS)
        with writing(server.port, store, "post", 2_000_000, 4000):
            told["beside one that never ceases to send batches of 100"] = times_of_gets(server.port, SECONDS / 2)
    for what, taken in told.items():
        half, most, last = taken[len(taken) // 2], taken[len(taken) * 99 // 100], taken[-1]
        print(f"  {what}: half {half * 1e3:.2f}, 99 in 100 {most * 1e3:.2f}, the longest of {len(taken):,} {last * 1e3:.1f}")
    sys.stdout.flush()


def measure_one(programs):
    print("one client, one worker, a second")
    for name, program in programs:
        rate = best(lambda: puts(program, 1, 1)[0])
        store = with_statements(program, HELD)
        version = format_of(store)
        with serving(program, store, 1) as server:
            gets = best(lambda: asked(server.port, "get", HELD, GETS, 1))
        run(HERE / "make_store.py", "store", HELD_OF_PAGES, "--format", version, "--limit", 1_073_741_824)
        with serving(program, "store", 1) as server:
            pages = best(lambda: asked(server.port, "path", f"/xapi/statements?verb={VERB}&limit=100", PAGES, 1))
        print(f"  {name}: {rate:,} PUTs, {gets:,} GETs by id, {pages:,} pages of 100 by a verb", flush=True)


def main():
    parser = argparse.ArgumentParser(description=__doc__, formatter_class=argparse.RawDescriptionHelpFormatter)
    parser.add_argument("program")
    parser.add_argument("--folder", default=None)
    parser.add_argument("--workers", type=int, default=4)
    parser.add_argument("--before", default=None)
    given = parser.parse_args()
    program = os.path.abspath(given.program)
    programs = [("this program", program)]
    if given.before:
        programs.append(("the older one", os.path.abspath(given.before)))
    with tempfile.TemporaryDirectory(dir=given.folder) as name:
        folder = pathlib.Path(name)
        os.chdir(folder)
        for source in ("requests", "six_calls", "bare_server"):
            run("cc", "-O2", "-D_GNU_SOURCE", "-pthread", "-o", source, HERE / f"{source}.c")
        print(f"{os.cpu_count()} processors")
        measure_puts(program, given.workers)
        measure_gets(program, given.workers)
        measure_pages(program, given.workers, folder)
        measure_cost(program)
        measure_times(program, given.workers)
        measure_one(programs)
        os.chdir("/")


if __name__ == "__main__":
    main()
