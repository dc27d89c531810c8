#!/usr/bin/env python3
"""Compares the pages that the server gives with a plain fold over the same statements, in stores that are made up at
random: references, chains and circles of them, voiding, groups, SubStatements, two providers, each filter alone and in
pairs, both orders, and links that are followed after more statements came.

  bench/random_lists.py PROGRAM SEED STORES [STATEMENTS]      100 statements a store, if not said otherwise

Prints the seed and what was compared. At the first difference it prints the store's seed, the query, and both lists, and
ends with status 1.
"""
import http.client
import json
import os
import random
import socket
import subprocess
import sys
import tempfile
import urllib.parse
import uuid

ADMIN = "adminadmin"
VOIDED = "http://adlnet.gov/expapi/verbs/voided"


class Server:
    """The program over a new store, and requests to it."""

    def __init__(self, program, folder):
        self.store = os.path.join(folder, "store")
        if os.path.exists(self.store):
            os.remove(self.store)
        subprocess.run([program, "init", self.store, "--admin", ADMIN], check=True, stdout=subprocess.DEVNULL)
        with socket.socket() as free:
            free.bind(("127.0.0.1", 0))
            self.port = free.getsockname()[1]
        words = [program, "serve", self.store, f"127.0.0.1:{self.port}", "--workers", "1", "--connections", "10000"]
        self.process = subprocess.Popen(
            words, stdin=subprocess.DEVNULL, stdout=subprocess.DEVNULL, stderr=subprocess.DEVNULL
        )
        while True:
            try:
                socket.create_connection(("127.0.0.1", self.port)).close()
                break
            except OSError:
                if self.process.poll() is not None:
                    sys.exit(f"the server ended with status {self.process.returncode}")
        self.connection, self.sent = None, 0

    def ask(self, method, path, body=None, token=ADMIN):
        if self.connection is None or self.sent == 900:
            self.connection, self.sent = http.client.HTTPConnection("127.0.0.1", self.port), 0
        self.sent += 1
        headers = {
            "X-Experience-API-Version": "1.0.3",
            "Authorization": "Basic " + token,
            "Content-Type": "application/json",
        }
        text = "" if body is None else json.dumps(body)
        self.connection.request(method, path, body=text, headers=headers)
        response = self.connection.getresponse()
        return response.status, response.read()

    def stop(self):
        self.process.kill()
        self.process.wait()


# ---- statements


def agents(number):
    """An agent with one of the four kinds of identifier."""
    kinds = [
        {"mbox": f"mailto:a{number}@example.org"},
        {"mbox_sha1sum": f"{number:040x}"},
        {"openid": f"http://agent.example/{number}"},
        {"account": {"homePage": "http://home.example", "name": f"a{number}"}},
    ]
    return kinds[number % 4]


class Maker:
    """Makes statements up."""

    def __init__(self, source, size):
        self.random = source
        self.size = size
        self.ids = [str(uuid.UUID(int=source.getrandbits(128), version=4)) for _ in range(size + 6)]
        self.registrations = [str(uuid.UUID(int=source.getrandbits(128), version=4)) for _ in range(4)]

    def agent(self):
        return agents(self.random.randrange(7))

    def party(self):
        if self.random.random() < 0.7:
            return self.agent()
        group = {"objectType": "Group", "member": [self.agent() for _ in range(self.random.randrange(1, 4))]}
        if self.random.random() < 0.4:
            group.update(agents(7 + self.random.randrange(3)))
        return group

    def activity(self):
        return {"id": f"http://activity.example/{self.random.randrange(6)}"}

    def verb(self):
        return {"id": f"http://verb.example/{self.random.randrange(5)}"}

    def context(self):
        context = {}
        if self.random.random() < 0.6:
            context["registration"] = self.random.choice(self.registrations)
        if self.random.random() < 0.3:
            context["instructor"] = self.party()
        if self.random.random() < 0.3:
            members = [self.agent() for _ in range(self.random.randrange(1, 3))]
            context["team"] = {"objectType": "Group", "member": members}
        if self.random.random() < 0.4:
            names = self.random.sample(["parent", "grouping", "category", "other"], self.random.randrange(1, 3))
            context["contextActivities"] = {
                name: self.activity() if self.random.random() < 0.5 else [self.activity(), self.activity()]
                for name in names
            }
        return context

    def inner(self):
        """A SubStatement."""
        inner = {"objectType": "SubStatement", "actor": self.party(), "verb": self.verb(), "object": self.thing()}
        context = self.context() if self.random.random() < 0.5 else {}
        context.pop("registration", None) if "objectType" in inner["object"] else None
        return {**inner, "context": context} if context else inner

    def reference(self):
        return {"objectType": "StatementRef", "id": self.random.choice(self.ids)}

    def thing(self):
        """An object that is no SubStatement."""
        draw = self.random.random()
        if draw < 0.6:
            return self.activity()
        if draw < 0.8:
            party = self.party()
            return {"objectType": "Agent", **party} if "objectType" not in party else party
        return self.reference()

    def statement(self, number):
        statement = {"id": self.ids[number], "actor": self.party(), "verb": self.verb()}
        draw = self.random.random()
        if draw < 0.12:
            statement["object"] = self.inner()
        elif draw < 0.45:
            statement["object"] = self.reference()
        else:
            statement["object"] = self.thing()
        if self.random.random() < 0.7:
            context = self.context()
            if context:
                statement["context"] = context
        return statement

    def voiding(self, number):
        return {
            "id": self.ids[number],
            "actor": self.agent(),
            "verb": {"id": VOIDED},
            "object": {"objectType": "StatementRef", "id": self.random.choice(self.ids)},
        }


# ---- the plain fold


def identifier(party):
    for name in ("mbox", "mbox_sha1sum", "openid"):
        if name in party:
            return (name, party[name])
    if "account" in party:
        return ("account", party["account"]["homePage"], party["account"]["name"])
    return None


def of_party(party):
    found = {identifier(party)} | {identifier(member) for member in party.get("member", [])}
    return found - {None}


def is_party(thing):
    return thing.get("objectType") in ("Agent", "Group")


def direct_agents(statement):
    found = of_party(statement["actor"])
    return found | of_party(statement["object"]) if is_party(statement["object"]) else found


def context_agents(statement):
    context = statement.get("context", {})
    return of_party(context.get("instructor", {})) | of_party(context.get("team", {}))


def all_agents(statement):
    found = direct_agents(statement) | context_agents(statement) | of_party(statement.get("authority", {}))
    thing = statement["object"]
    if thing.get("objectType") == "SubStatement":
        found |= direct_agents(thing) | context_agents(thing)
    return found


def direct_activities(statement):
    thing = statement["object"]
    return {thing["id"]} if thing.get("objectType", "Activity") == "Activity" else set()


def context_activities(statement):
    found = set()
    for held in statement.get("context", {}).get("contextActivities", {}).values():
        found |= {activity["id"] for activity in (held if isinstance(held, list) else [held])}
    return found


def all_activities(statement):
    found = direct_activities(statement) | context_activities(statement)
    thing = statement["object"]
    if thing.get("objectType") == "SubStatement":
        found |= direct_activities(thing) | context_activities(thing)
    return found


class Fold:
    """The statements in their order, each with who brought it."""

    def __init__(self):
        self.held = []

    def target(self, statement):
        thing = statement["object"]
        return thing["id"] if thing.get("objectType") == "StatementRef" else None

    def chain(self, count, statement):
        places = {held["id"]: held for held, _ in self.held[:count]}
        found, seen = [], set()
        while statement is not None and statement["id"] not in seen:
            seen.add(statement["id"])
            found.append(statement)
            target = self.target(statement)
            statement = places.get(target)
        return found

    def is_voided(self, count, statement):
        if statement["verb"]["id"] == VOIDED:
            return False
        return any(
            held["verb"]["id"] == VOIDED and self.target(held) == statement["id"] for held, _ in self.held[:count]
        )

    def listing(self, count, query, who):
        owner = {held["id"]: by for held, by in self.held}
        sees = lambda statement: who == ADMIN or owner[statement["id"]] == who

        def direct(statement):
            related = query.get("related_agents") == "true"
            if "agent" in query:
                party = identifier(json.loads(query["agent"]))
                if party not in (all_agents(statement) if related else direct_agents(statement)):
                    return False
            if "verb" in query and statement["verb"]["id"] != query["verb"]:
                return False
            if "activity" in query:
                related = query.get("related_activities") == "true"
                activities = all_activities(statement) if related else direct_activities(statement)
                if query["activity"] not in activities:
                    return False
            if "registration" in query:
                if statement.get("context", {}).get("registration") != query["registration"]:
                    return False
            return True

        listed = []
        for statement, _ in self.held[:count]:
            stored = statement["stored"]
            if not sees(statement) or self.is_voided(count, statement):
                continue
            if "since" in query and not stored > query["since"]:
                continue
            if "until" in query and not stored <= query["until"]:
                continue
            if any(sees(one) and direct(one) for one in self.chain(count, statement)):
                listed.append(statement["id"])
        return listed if query.get("ascending") == "true" else listed[::-1]


# ---- the comparison


def filters(source, maker, fold):
    """One filter or two, sometimes three, with the other parameters."""
    moments = [held["stored"] for held, _ in fold.held]
    kinds = {
        "agent": lambda: json.dumps(agents(source.randrange(10))),
        "verb": lambda: source.choice([f"http://verb.example/{source.randrange(6)}", VOIDED]),
        "activity": lambda: f"http://activity.example/{source.randrange(7)}",
        "registration": lambda: source.choice(maker.registrations),
        "since": lambda: source.choice(moments),
        "until": lambda: source.choice(moments),
    }
    names = source.sample(list(kinds), source.choice([0, 1, 1, 1, 2, 2, 2, 3]))
    query = {name: kinds[name]() for name in names}
    if "agent" in query and source.random() < 0.5:
        query["related_agents"] = "true"
    if "activity" in query and source.random() < 0.5:
        query["related_activities"] = "true"
    if source.random() < 0.5:
        query["ascending"] = "true"
    if source.random() < 0.8:
        query["limit"] = str(source.choice([1, 2, 3, 7, 20]))
    return query


class Comparison:
    def __init__(self, server, source, size):
        self.server, self.random = server, source
        self.maker, self.fold = Maker(source, size), Fold()
        self.tokens = [ADMIN]
        for name in ("one", "two"):
            status, body = server.ask("POST", "/desk/callers", {"name": name})
            if status != 200:
                sys.exit(f"no provider: {status} {body}")
            self.tokens.append(json.loads(body)["token"])
        self.queries = self.pages = self.kept = self.refused = 0

    def add(self, number):
        """Sends one statement, and reads back how it is kept."""
        if self.random.random() < 0.15:
            statement, token = self.maker.voiding(number), ADMIN
        else:
            statement, token = self.maker.statement(number), self.random.choice(self.tokens)
        status, body = self.server.ask("POST", "/xapi/statements", statement, token)
        if status != 200:
            self.refused += 1
            if status != 400 and status != 403:
                sys.exit(f"a statement: {status} {body}")
            return
        voided = self.fold.is_voided(len(self.fold.held), statement)
        name = "voidedStatementId" if voided else "statementId"
        status, body = self.server.ask("GET", f"/xapi/statements?{name}={statement['id']}")
        if status != 200:
            sys.exit(f"GET {name}={statement['id']}: {status} {body}")
        self.fold.held.append((json.loads(body), token))
        self.kept += 1

    def begin(self):
        """A first page: what is left of its list, and the link."""
        query, who = filters(self.random, self.maker, self.fold), self.random.choice(self.tokens)
        count = len(self.fold.held)
        path = "/xapi/statements" + ("?" + urllib.parse.urlencode(query) if query else "")
        return self.follow(query, who, path, self.fold.listing(count, query, who))

    def follow(self, query, who, path, wanted):
        """Compares one page, and gives what comes behind it."""
        status, body = self.server.ask("GET", path, None, who)
        page = json.loads(body)
        got = [statement["id"] for statement in page["statements"]] if status == 200 else None
        most = int(query.get("limit", "100"))
        self.pages += 1
        if got != wanted[:most] or (page["more"] == "") != (len(wanted) <= most):
            print(f"difference: {path} of {who}: {status}\n  got    {got} {page.get('more')}\n  wanted {wanted}")
            sys.exit(1)
        return None if page["more"] == "" else (query, who, page["more"], wanted[most:])

    def run(self, size):
        begun, number = [], 0
        while number < size:
            for _ in range(self.random.randrange(1, 12)):
                if number < size:
                    self.add(number)
                    number += 1
            if not self.fold.held:
                continue
            for _ in range(4):
                self.queries += 1
                begun.append(self.begin())
            self.random.shuffle(begun)
            following = [self.follow(*behind) for behind in begun[:4] if behind is not None]
            begun = [behind for behind in begun[4:] + following if behind is not None]
        for behind in begun:
            while behind is not None:
                behind = self.follow(*behind)


def main():
    if len(sys.argv) not in (4, 5):
        sys.exit(__doc__)
    program, seed, stores = sys.argv[1], int(sys.argv[2]), int(sys.argv[3])
    size = int(sys.argv[4]) if len(sys.argv) == 5 else 100
    print(f"seed {seed}", flush=True)
    queries = pages = kept = refused = 0
    with tempfile.TemporaryDirectory() as folder:
        for number in range(stores):
            server = Server(program, folder)
            try:
                comparison = Comparison(server, random.Random(seed * 1_000_000 + number), size)
                comparison.run(size)
            except SystemExit:
                print(f"in store {number} of seed {seed}")
                raise
            finally:
                server.stop()
            queries, pages = queries + comparison.queries, pages + comparison.pages
            kept, refused = kept + comparison.kept, refused + comparison.refused
    print(f"{stores} stores of {size}: {kept} statements kept, {refused} refused; {queries} queries, {pages} pages: no difference")


main()
