#!/usr/bin/env python3
"""Measures over stores of more and more statements how long it takes to tell how far a learner has come in a course of
1,000 units, each sixteen deep, and to keep the statement that satisfies it, with all that the store says then. Beside
them stand the enrolment and the launch, a statement of the session that satisfies nothing, and one of an admin.

  bench/verdicts.py PROGRAM FILE [N ..]     PROGRAM is the built program; FILE is made anew for each number N of
                                            statements (10000 and 100000)
"""
import os
import pathlib
import statistics
import subprocess
import sys
import time

sys.dont_write_bytecode = True
from sessions import COURSE, Client, launch, serve

UNITS = 1000
BLOCKS = 15
LEARNERS = 20
LAST = f"http://course.example/u{UNITS}"


def unit(number):
    """All units but the last ask for nothing."""
    name = f"http://course.example/u{number}"
    made = {"kind": "unit", "id": name, "title": {"en": "U"}, "url": "https://au.example/u"}
    return {**made, "moveOn": "Passed"} if number == UNITS else made


def course():
    """Blocks one in the other, of which the innermost holds the units."""
    children = [unit(number) for number in range(1, UNITS + 1)]
    for number in range(BLOCKS, 0, -1):
        block = {"kind": "block", "id": f"http://course.example/b{number}", "title": {"en": "B"}, "children": children}
        children = [block]
    return {"id": COURSE, "title": {"en": "A course"}, "children": children}


class Times:
    """How long calls took, by what they do, and how long the server worked on them, without the disk and the client."""

    def __init__(self, server):
        self.server, self.seconds, self.worked = server, {}, {}

    def processor(self):
        with open(f"/proc/{self.server.pid}/schedstat") as told:
            return int(told.read().split()[0]) / 1e9

    def of(self, name, call):
        start, before = time.time(), self.processor()
        result = call()
        self.seconds.setdefault(name, []).append(time.time() - start)
        self.worked.setdefault(name, []).append(self.processor() - before)
        return result

    def show(self):
        for name, seconds in self.seconds.items():
            worked = 1000 * statistics.median(self.worked[name])
            took, most = 1000 * statistics.median(seconds), 1000 * max(seconds)
            print(f"    {name}: {took:.1f} ms ({most:.1f} at most), of the server's processor {worked:.2f} ms")


def go_through(client, times, number):
    """One learner, from the enrolment to a course that is satisfied."""
    actor = {"account": {"homePage": "https://p.example", "name": f"k{number}"}}
    registration, token, said = times.of("enrolment, launch and fetch", lambda: launch(client, actor, LAST))
    initialized, completed, passed, _ = said
    page = f"/desk/registrations/{registration}"

    def say(name, statement, by):
        times.of(name, lambda: client.post("/xapi/statements", statement, by))

    def is_satisfied():
        return times.of("how far a learner has come", lambda: client.get(page))["satisfied"]

    client.post("/xapi/statements", initialized, token)
    say("a statement of the session that satisfies nothing", completed, token)
    if is_satisfied():
        sys.exit("satisfied too early")
    say("the statement that satisfies the course", passed, token)
    if not is_satisfied():
        sys.exit("not satisfied")
    plain = {"actor": {"mbox": "mailto:a@b"}, "verb": {"id": "http://v/1"}, "object": {"id": "http://a/1"}}
    say("a statement of an admin", plain, "adminadmin")


def measure(program, store, held):
    if os.path.exists(store):
        os.remove(store)
    maker = pathlib.Path(__file__).resolve().parent / "make_store.py"
    subprocess.run([maker, store, str(held), "--limit", "1073741824"], check=True)
    server, opening = serve(program, store)
    print(f"  over {held} statements, which are opened in {opening:.1f} s")
    client, times = Client(), Times(server)
    times.of("the course", lambda: client.post("/desk/courses", course()))
    for number in range(LEARNERS):
        go_through(client, times, number)
    times.show()
    server.kill()
    server.wait()
    server, opening = serve(program, store)
    server.kill()
    server.wait()
    print(f"    with {LEARNERS} learners more the store opens in {opening:.1f} s")


def main():
    program, store = sys.argv[1], sys.argv[2]
    for held in [int(word) for word in sys.argv[3:]] or [10000, 100000]:
        measure(program, store, held)


main()
