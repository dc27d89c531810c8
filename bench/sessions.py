#!/usr/bin/env python3
"""Launches a unit for N learners, lets each session say four statements in one batch, and prints how long such a batch
takes as the store grows, how long a sweep takes, which finds no open session, and how long the store takes to open.
With `open` no session says that it is terminated, and the sweep abandons them all.

  bench/sessions.py PROGRAM FILE N [open]      PROGRAM is the built program; FILE is made anew; N sessions (10000 at
                                               most)
"""
import atexit
import http.client
import json
import os
import socket
import subprocess
import sys
import time
import urllib.parse

PORT = 24567
PER_CONNECTION = 1000
VERBS = "http://adlnet.gov/expapi/verbs/"
CATEGORIES = "https://w3id.org/xapi/cmi5/context/categories/"
SESSION_ID = "https://w3id.org/xapi/cmi5/context/extensions/sessionid"
COURSE, UNIT = "http://course.example/c", "http://course.example/u"


def serve(program, store):
    """The server, once it listens, and the seconds until then."""
    words = [program, "serve", store, f"127.0.0.1:{PORT}", "--workers", "1", "--connections", "10000"]
    start = time.time()
    server = subprocess.Popen(words, stdin=subprocess.DEVNULL, stdout=subprocess.DEVNULL, stderr=subprocess.DEVNULL)
    atexit.register(server.kill)
    while server.poll() is None:
        try:
            socket.create_connection(("127.0.0.1", PORT)).close()
            return server, time.time() - start
        except OSError:
            time.sleep(0.01)
    sys.exit(f"the server ended with status {server.returncode}")


class Client:
    """Requests over kept-alive connections."""

    def __init__(self):
        self.connection, self.sent = None, PER_CONNECTION

    def ask(self, method, path, body, token):
        """What the server answers, which is JSON."""
        if self.sent == PER_CONNECTION:
            self.connection, self.sent = http.client.HTTPConnection("127.0.0.1", PORT), 0
        self.sent += 1
        headers = {
            "X-Experience-API-Version": "1.0.3",
            "Authorization": "Basic " + token,
            "Content-Type": "application/json",
        }
        self.connection.request(method, path, body=json.dumps(body) if body is not None else "", headers=headers)
        response = self.connection.getresponse()
        text = response.read()
        if response.status != 200:
            sys.exit(f"{path}: {response.status} {text}")
        return json.loads(text)

    def post(self, path, body, token="adminadmin"):
        return self.ask("POST", path, body, token)

    def get(self, path, token="adminadmin"):
        return self.ask("GET", path, None, token)


def launch(client, actor, unit=UNIT):
    """A new registration of the actor, the token of a session of that unit, and the statements that it says."""
    registration = client.post("/desk/registrations", {"course": COURSE, "actor": actor})["registration"]
    launched = client.post(f"/desk/registrations/{registration}/launches", {"unit": unit})
    address = dict(urllib.parse.parse_qsl(launched["url"].split("?", 1)[1]))
    token = client.post("/fetch/" + address["fetch"].split("/fetch/")[1], None)["auth-token"]

    def statement(verb, categories, result=None):
        said = {
            "actor": actor,
            "verb": {"id": VERBS + verb},
            "object": {"id": address["activityId"]},
            "context": {
                "registration": registration,
                "contextActivities": {
                    "grouping": [{"id": unit}],
                    "category": [{"id": CATEGORIES + name} for name in categories],
                },
                "extensions": {SESSION_ID: launched["session"]},
            },
        }
        return {**said, "result": result} if result else said

    return registration, token, [
        statement("initialized", ["cmi5"]),
        statement("completed", ["cmi5", "moveon"], {"completion": True}),
        statement("passed", ["cmi5", "moveon"], {"success": True, "score": {"scaled": 0.9}}),
        statement("terminated", ["cmi5"], {"duration": "PT1M"}),
    ]


def main():
    program, store, sessions = sys.argv[1], sys.argv[2], int(sys.argv[3])
    stay_open = sys.argv[4:] == ["open"]
    if os.path.exists(store):
        os.remove(store)
    made = [program, "init", store, "--admin", "adminadmin", "--limit", "1000000000"]
    subprocess.run(made, check=True, stdout=subprocess.DEVNULL)
    server, _ = serve(program, store)
    client = Client()
    unit = {"kind": "unit", "id": UNIT, "title": {"en": "A unit"}, "url": "https://au.example/u", "masteryScore": 0.8}
    # one that nobody passes, so that the store says nothing of the course
    other = {"kind": "unit", "id": UNIT + "2", "title": {"en": "B"}, "url": "https://au.example/v", "moveOn": "Passed"}
    client.post("/desk/courses", {"id": COURSE, "title": {"en": "A course"}, "children": [unit, other]})
    seconds, batches = 0.0, 0
    for learner in range(1, sessions + 1):
        actor = {"account": {"homePage": "https://p.example", "name": f"k{learner}"}}
        _, token, statements = launch(client, actor)
        said = statements[:3] if stay_open else statements
        start = time.time()
        client.post("/xapi/statements", said, token)
        seconds, batches = seconds + time.time() - start, batches + 1
        if learner % 500 == 0:
            held = (1 + len(said)) * learner
            print(f"  over {held} statements a session's batch of {len(said)} takes {1000 * seconds / batches:.2f} ms")
            seconds, batches = 0.0, 0
    start = time.time()
    swept = client.post("/desk/sweep", {"idle": 0})
    took = 1000 * (time.time() - start)
    print(f"  a sweep over {sessions} sessions, of which it abandons {len(swept['abandoned'])}, takes {took:.1f} ms")
    server.kill()
    server.wait()
    server, opening = serve(program, store)
    server.kill()
    print(f"  the store ({os.path.getsize(store) / 1e6:.1f} MB) opens in {opening:.1f} s")


if __name__ == "__main__":
    main()
