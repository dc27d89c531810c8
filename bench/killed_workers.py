#!/usr/bin/env python3
"""Serves a new store with several workers to several clients at once, who put statements, post batches, void, list and
read at random, kills the server while they do, opens the store again, and looks for each acknowledged statement.

  bench/killed_workers.py PROGRAM SEED [SECONDS [KILLS [WORKERS [CLIENTS]]]]     60 seconds, 10 kills, 16 workers and
                                                                                64 clients, if not said otherwise

The clients' requests are made of SEED; in which order the workers take them isn't. While the server runs, a statement
that was acknowledged is to be read by each later request, by whichever worker it is answered. In the end all pages of
the list are compared with what was sent: each acknowledged statement is there as it was sent, once, or it was voided.
One whose request got no answer may be there or not, but those of one batch are all there, or none is: this is looked at
before such a batch is sent again, and in the end. Prints the seed, the outcome and counts in one line. At the first loss,
and at an answer that is none of those expected, that line says what was lost or answered, and the status is 1.
"""
import http.client
import json
import os
import random
import signal
import socket
import subprocess
import sys
import tempfile
import threading
import time
import urllib.parse
import uuid

ADMIN = "adminadmin"
LIMIT = "1073741824"
VOIDED = "http://adlnet.gov/expapi/verbs/voided"
VERBS = [f"http://verb.example/{number}" for number in range(7)]
LEARNERS = [f"mailto:learner{number}@example.org" for number in range(23)]
# so many requests at most before a client makes a new connection, and lets others have the worker
PER_CONNECTION = 20
MOST_IN_BATCH = 10
STATEMENTS = "/xapi/statements"


class Loss(Exception):
    """An acknowledged statement isn't there, or something was answered that isn't expected."""


class NoAnswer(Exception):
    """The server was killed meanwhile."""


class Server:
    """The program over a new store. Each start is at an address of its own."""

    def __init__(self, program, folder, workers):
        self.program, self.workers = program, str(workers)
        self.store = os.path.join(folder, "store")
        self.process = None
        # the number of this start and its port, while it runs
        self.life = None
        self.starts = self.kills = 0
        made = [program, "init", self.store, "--admin", ADMIN, "--limit", LIMIT]
        subprocess.run(made, check=True, stdin=subprocess.DEVNULL, stdout=subprocess.DEVNULL)

    def start(self):
        """The seconds until it listens."""
        with socket.socket() as free:
            free.bind(("127.0.0.1", 0))
            port = free.getsockname()[1]
        words = [self.program, "serve", self.store, f"127.0.0.1:{port}"]
        words += ["--workers", self.workers, "--connections", "10000"]
        start = time.monotonic()
        nothing = subprocess.DEVNULL
        self.process = subprocess.Popen(words, stdin=nothing, stdout=nothing, stderr=nothing)
        while True:
            try:
                socket.create_connection(("127.0.0.1", port)).close()
                break
            except OSError:
                if self.process.poll() is not None:
                    raise Loss(f"the store doesn't open: status {self.process.returncode}") from None
                time.sleep(0.002)
        self.starts += 1
        self.life = (self.starts, port)
        return time.monotonic() - start

    def kill(self):
        """Kills it as it runs. One that has ended by itself is a loss."""
        self.life = None
        if self.process.poll() is not None:
            raise Loss(f"the server ended by itself: status {self.process.returncode}")
        self.kills += 1
        self.process.send_signal(signal.SIGKILL)
        self.process.wait()

    def end(self):
        if self.process is not None and self.process.poll() is None:
            self.process.kill()
            self.process.wait()


class Connection:
    """Requests of one client, over connections of a few requests each."""

    def __init__(self, server, most):
        self.server, self.most = server, most
        self.connection = self.life = None
        self.left = self.answered = 0

    def close(self):
        if self.connection is not None:
            self.connection.close()
        self.connection = None

    def open(self):
        """A connection on which a further request may be sent. The server closes one that is idle for 5 seconds."""
        if self.connection is not None and (self.left == 0 or time.monotonic() > self.answered + 2):
            self.close()
        if self.connection is None:
            self.life = self.server.life
            if self.life is None:
                raise NoAnswer
            self.connection = http.client.HTTPConnection("127.0.0.1", self.life[1], timeout=120)
            self.left = self.most()
        self.left -= 1
        return self.connection

    def ask(self, method, path, body=None):
        """The status and the JSON of the body."""
        connection = self.open()
        headers = {
            "X-Experience-API-Version": "1.0.3",
            "Authorization": "Basic " + ADMIN,
            "Content-Type": "application/json",
        }
        try:
            connection.request(method, path, body="" if body is None else json.dumps(body), headers=headers)
            response = connection.getresponse()
            answer = response.read()
        except (OSError, http.client.HTTPException) as fault:
            self.close()
            if self.server.life is self.life:
                raise Loss(f"no answer to {method} {path} though the server runs: {fault!r}") from None
            raise NoAnswer from None
        self.answered = time.monotonic()
        return response.status, json.loads(answer) if answer else None


class Known:
    """What all clients know of the statements that they sent."""

    def __init__(self):
        self.lock = threading.Lock()
        self.sent = {}
        # the ids of those that were acknowledged, in that order
        self.acknowledged = []
        # by target: whether its voiding was acknowledged
        self.voided = {}
        # by the first id: the ids of the batches that got no answer so far
        self.unanswered = {}
        self.counts = {}

    def count(self, name):
        with self.lock:
            self.counts[name] = self.counts.get(name, 0) + 1

    def sends(self, trees):
        with self.lock:
            for tree in trees:
                self.sent[tree["id"]] = tree

    def acknowledges(self, trees):
        with self.lock:
            self.acknowledged.extend(tree["id"] for tree in trees)
            self.unanswered.pop(trees[0]["id"], None)

    def gets_no_answer(self, trees):
        with self.lock:
            self.unanswered[trees[0]["id"]] = [tree["id"] for tree in trees]

    def any_acknowledged(self, choice):
        with self.lock:
            return choice(self.acknowledged) if self.acknowledged else None


def check_same(sent, found):
    for member in ("id", "actor", "verb", "object"):
        if found.get(member) != sent[member]:
            raise Loss(f"{sent['id']} came back otherwise: {json.dumps(found)} in place of {json.dumps(sent)}")


def check_there(ask, known, name):
    """Reads an acknowledged statement. One that is voided is read as such; while a voiding is on its way, either."""
    before = known.voided.get(name)
    status, found = ask("GET", f"{STATEMENTS}?statementId={name}")
    if status == 200 and before is not True:
        check_same(known.sent[name], found)
        return
    if status == 404 and name in known.voided:
        status, found = ask("GET", f"{STATEMENTS}?voidedStatementId={name}")
        if status == 200:
            check_same(known.sent[name], found)
            return
    raise Loss(f"{name} was acknowledged, and is answered {status} {json.dumps(found)}; voided: {before}")


def check_whole(names, there):
    """Whether the statements of a batch are there, which must be so of all of them or of none."""
    found = [name for name in names if there(name)]
    if found and len(found) < len(names):
        raise Loss(f"of the batch {names} only {found} are there")
    return bool(found)


class Client(threading.Thread):
    """Does at random what clients do, until it is told to stop."""

    def __init__(self, server, known, seed, stop, faults):
        super().__init__(daemon=True)
        self.server, self.known, self.stop, self.faults = server, known, stop, faults
        self.random = random.Random(seed)
        self.connection = Connection(server, lambda: self.random.randint(1, PER_CONNECTION))
        self.own = []
        # requests without an answer, to be sent again
        self.open = []

    def statement(self):
        return {
            "id": str(uuid.UUID(int=self.random.getrandbits(128), version=4)),
            "actor": {"objectType": "Agent", "mbox": self.random.choice(LEARNERS)},
            "verb": {"id": self.random.choice(VERBS)},
            "object": {"objectType": "Activity", "id": f"http://activity.example/{self.random.randrange(100)}"},
        }

    def voiding(self, target):
        return {
            **self.statement(),
            "verb": {"id": VOIDED},
            "object": {"objectType": "StatementRef", "id": target},
        }

    def writes(self, trees, alone, target=None):
        """Sends statements, alone by PUT or as a batch. Without an answer it is kept for later."""
        self.known.sends(trees)
        if target is not None:
            self.known.voided.setdefault(target, False)
        try:
            if alone:
                status, told = self.connection.ask("PUT", f"{STATEMENTS}?statementId={trees[0]['id']}", trees[0])
                wanted = (204, None)
            else:
                status, told = self.connection.ask("POST", STATEMENTS, trees)
                wanted = (200, [tree["id"] for tree in trees])
        except NoAnswer:
            self.open.append((trees, alone, target))
            if not alone:
                self.known.gets_no_answer(trees)
            self.known.count("requests without an answer")
            raise
        if (status, told) != wanted:
            raise Loss(f"{json.dumps(trees)} was answered {status} {json.dumps(told)}")
        if target is not None:
            self.known.voided[target] = True
        self.known.acknowledges(trees)
        if target is None:
            self.own.extend(tree["id"] for tree in trees)

    def puts(self):
        self.writes([self.statement()], True)
        self.known.count("PUTs")

    def posts(self):
        self.writes([self.statement() for _ in range(self.random.randint(1, MOST_IN_BATCH))], False)
        self.known.count("batches")

    def voids(self):
        if not self.own:
            return self.puts()
        target = self.own.pop(self.random.randrange(len(self.own)))
        self.writes([self.voiding(target)], self.random.random() < 0.5, target)
        self.known.count("voidings")

    def lists(self):
        query = {"limit": str(self.random.choice([1, 10, 50]))}
        if self.random.random() < 0.5:
            query["verb"] = self.random.choice(VERBS)
        if self.random.random() < 0.5:
            query["agent"] = json.dumps({"mbox": self.random.choice(LEARNERS)})
        if self.random.random() < 0.5:
            query["ascending"] = "true"
        path = f"{STATEMENTS}?{urllib.parse.urlencode(query)}"
        status, page = self.connection.ask("GET", path)
        if status != 200:
            raise Loss(f"{path}: {status} {json.dumps(page)}")
        names = [tree["id"] for tree in page["statements"]]
        if len(set(names)) < len(names):
            raise Loss(f"{path} lists a statement twice: {names}")
        for tree in page["statements"]:
            if tree["id"] not in self.known.sent:
                raise Loss(f"{path} lists what nobody sent: {json.dumps(tree)}")
            check_same(self.known.sent[tree["id"]], tree)
        self.known.count("lists")

    def reads(self):
        name = self.known.any_acknowledged(self.random.choice)
        if name is not None:
            check_there(self.connection.ask, self.known, name)
            self.known.count("reads")

    def is_there(self, name):
        """Whether a statement is there whose request got no answer, so that nobody has voided it."""
        path = f"{STATEMENTS}?statementId={name}"
        status, found = self.connection.ask("GET", path)
        if status == 200:
            check_same(self.known.sent[name], found)
        elif status != 404:
            raise Loss(f"{path}: {status} {json.dumps(found)}")
        return status == 200

    def again(self):
        """Sends what got no answer once more: it is taken, whether it had come before or not."""
        if not self.open:
            return
        trees, alone, target = self.open[0]
        if len(trees) > 1:
            whole = check_whole([tree["id"] for tree in trees], self.is_there)
            self.known.count("unanswered batches found whole" if whole else "unanswered batches not found")
        del self.open[0]
        self.writes(trees, alone, target)
        self.known.count("sent again")

    def run(self):
        kinds = {self.puts: 8, self.posts: 4, self.voids: 2, self.lists: 3, self.reads: 6, self.again: 3}
        try:
            while not self.stop.is_set():
                if self.server.life is None:
                    time.sleep(0.05)
                    continue
                try:
                    self.random.choices(list(kinds), list(kinds.values()))[0]()
                except NoAnswer:
                    pass
        except Exception as fault:
            self.faults.append(fault)
            self.stop.set()
        finally:
            self.connection.close()


def check_all(server, known):
    """Compares all pages with what was sent, and reads each voided statement. How many are there that were never
    acknowledged."""
    ask = Connection(server, lambda: 900).ask
    listed = set()
    path = f"{STATEMENTS}?limit=100&ascending=true"
    while path:
        status, page = ask("GET", path)
        if status != 200:
            raise Loss(f"{path}: {status} {json.dumps(page)}")
        for tree in page["statements"]:
            if tree["id"] not in known.sent:
                raise Loss(f"nobody sent {json.dumps(tree)}")
            if tree["id"] in listed:
                raise Loss(f"{tree['id']} is listed twice")
            check_same(known.sent[tree["id"]], tree)
            listed.add(tree["id"])
        path = page["more"]
    for name in known.acknowledged:
        voided = known.voided.get(name)
        if voided is None and name not in listed:
            raise Loss(f"{name} was acknowledged, and isn't listed")
        if voided is True and name in listed:
            raise Loss(f"{name} was voided, and is listed")
        if voided is not None:
            check_there(ask, known, name)
    for names in known.unanswered.values():
        if len(names) > 1:
            whole = check_whole(names, listed.__contains__)
            known.count("unanswered batches found whole" if whole else "unanswered batches not found")
    return len(listed - set(known.acknowledged))


def run(server, known, seed, seconds, kills, clients):
    """Serves and kills while clients are at work. The seconds that each opening took."""
    opened = [server.start()]
    stop, faults = threading.Event(), []
    crowd = [Client(server, known, f"{seed} {number}", stop, faults) for number in range(clients)]
    moments = random.Random(f"{seed} kills")
    start = time.monotonic()
    for client in crowd:
        client.start()
    for number in range(1, kills + 1):
        # the last kill is at the end
        early = moments.uniform(0, 0.5) if number < kills else 0
        stop.wait(max(0, start + seconds * (number - early) / kills - time.monotonic()))
        if stop.is_set():
            break
        server.kill()
        if number == kills:
            stop.set()
        opened.append(server.start())
    for client in crowd:
        client.join()
    if faults:
        raise faults[0]
    return opened


def main():
    if not 3 <= len(sys.argv) <= 7:
        sys.exit(__doc__)
    program, seed = sys.argv[1], sys.argv[2]
    given = [int(word) for word in sys.argv[3:]]
    seconds, kills, workers, clients = given + [60, 10, 16, 64][len(given) :]
    if kills == 0:
        sys.exit(__doc__)
    known = Known()
    with tempfile.TemporaryDirectory() as folder:
        server = Server(program, folder, workers)
        try:
            opened = run(server, known, seed, seconds, kills, clients)
            found = check_all(server, known)
            size = os.path.getsize(server.store)
            outcome = f"nothing lost; there without an answer {found:,} statements; the store ({size / 1e6:.1f} MB) opened in"
            outcome += f" {max(opened):.2f} s at most"
        except Loss as loss:
            outcome = f"LOST: {loss}"
        finally:
            server.end()
    told = ", ".join(f"{name} {number:,}" for name, number in sorted(known.counts.items()))
    print(
        f"seed {seed}, {seconds} s, {server.kills} kills, {workers} workers, {clients} clients, "
        f"{len(known.acknowledged):,} statements acknowledged, {told}: {outcome}"
    )
    sys.exit(1 if outcome.startswith("LOST") else 0)


if __name__ == "__main__":
    main()
