#!/usr/bin/env python3
"""Compares what the server answers of courses and their learners with plain folds over the list of all statements, in
histories that are made up at random: courses that are corrected, several registrations in several editions of them,
launches in each mode, fetches, sessions that say each verb in any order, rightly and wrongly, alone and in batches,
repeats, waivers, abandoned and swept sessions, statements that an admin voids before and after they come, and a server
that is killed and started again.

  bench/random_histories.py PROGRAM SEED HISTORIES [STEPS]     80 steps a history, if not said otherwise

Each answer is compared, each statement that a step brings, also those that the store makes itself, and after each step
how far the learner of each registration has come. The folds follow docs/FORMATS.md. Prints the seed, how many
histories, editions, statements and comparisons there were, and which refusals. At the first difference it prints the history's
seed, its last steps, and both sides, and ends with status 1. So it does where an answer is missing or has another form.
"""
import calendar
import collections
import datetime
import fractions
import http.client
import json
import os
import random
import socket
import subprocess
import sys
import tempfile
import time
import traceback
import urllib.parse
import uuid

ADMIN = "adminadmin"
BASE = "http://127.0.0.1:8080/"
ADL = "http://adlnet.gov/expapi/verbs/"
INITIALIZED, COMPLETED, PASSED, FAILED, TERMINATED, VOIDED, LAUNCHED = (
    ADL + word for word in ("initialized", "completed", "passed", "failed", "terminated", "voided", "launched")
)
ABANDONED, WAIVED, SATISFIED = (
    "https://w3id.org/xapi/adl/verbs/" + word for word in ("abandoned", "waived", "satisfied")
)
CMI5 = "https://w3id.org/xapi/cmi5/context/categories/cmi5"
MOVE_ON = "https://w3id.org/xapi/cmi5/context/categories/moveon"
EXTENSIONS = "https://w3id.org/xapi/cmi5/context/extensions/"
SESSION_ID, MASTERY = EXTENSIONS + "sessionid", EXTENSIONS + "masteryscore"
REASON = "https://w3id.org/xapi/cmi5/result/extensions/reason"
REASONS = ["Tested Out", "Equivalent AU", "Equivalent Outside Activity", "Administrative"]
ACTIVITY_TYPES = {
    "course": "https://w3id.org/xapi/cmi5/activitytype/course",
    "block": "https://w3id.org/xapi/cmi5/activitytype/block",
}
MOVE_ONS = ["NotApplicable", "Passed", "Completed", "CompletedAndPassed", "CompletedOrPassed"]
SCORES = [-0.5, 0, 0.0, 0.3, 0.5, 0.79, 0.8, 0.80000001, 0.9, 1, 1.0]
# stands for the session that the store makes for an enrolment or a waiver, until its id is known
MADE = "made"


class Difference(Exception):
    """Something was answered that the folds don't say."""


class Server:
    """The program over a new store, and requests to it."""

    def __init__(self, program, folder):
        self.program, self.store = program, os.path.join(folder, "store")
        self.process = self.connection = None

    def found(self):
        if os.path.exists(self.store):
            os.remove(self.store)
        words = [self.program, "init", self.store, "--admin", ADMIN]
        status = subprocess.run(words, stdin=subprocess.DEVNULL, stdout=subprocess.DEVNULL).returncode
        if status != 0:
            raise Difference(f"no store was made: status {status}")
        self.start()

    def start(self):
        with socket.socket() as free:
            free.bind(("127.0.0.1", 0))
            self.port = free.getsockname()[1]
        address = f"127.0.0.1:{self.port}"
        words = [self.program, "serve", self.store, address, "--workers", "1", "--connections", "10000"]
        self.process = subprocess.Popen(
            words, stdin=subprocess.DEVNULL, stdout=subprocess.DEVNULL, stderr=subprocess.DEVNULL
        )
        self.connection, self.sent = None, 0
        while True:
            try:
                socket.create_connection(("127.0.0.1", self.port)).close()
                break
            except OSError:
                if self.process.poll() is not None:
                    raise Difference(f"the server ended with status {self.process.returncode}") from None
                time.sleep(0.002)

    def ask(self, method, path, body=None, token=ADMIN):
        """The status, the JSON of the body, and the moment of the last entry where it is told."""
        # the server closes a connection after 1,000 requests, and one that is idle for 5 seconds
        if self.connection is not None and (self.sent == 900 or time.monotonic() > self.answered + 2):
            self.connection.close()
            self.connection = None
        if self.connection is None:
            self.connection, self.sent = http.client.HTTPConnection("127.0.0.1", self.port, timeout=120), 0
        self.sent += 1
        headers = {
            "X-Experience-API-Version": "1.0.3",
            "Authorization": "Basic " + token,
            "Content-Type": "application/json",
        }
        text = "" if body is None else json.dumps(body)
        try:
            self.connection.request(method, path, body=text, headers=headers)
            response = self.connection.getresponse()
            answer = response.read()
        except (OSError, http.client.HTTPException) as fault:
            raise Difference(f"no answer to {method} {path}: {fault!r}") from None
        self.answered = time.monotonic()
        through = response.getheader("X-Experience-API-Consistent-Through")
        return response.status, json.loads(answer) if answer else None, through

    def stop(self):
        if self.connection is not None:
            self.connection.close()
        if self.process is not None:
            self.process.kill()
            self.process.wait()


# ---- what a statement says


def activities(tree, name):
    """The ids of the context activities of that name."""
    held = tree.get("context", {}).get("contextActivities", {}).get(name, [])
    return [activity["id"] for activity in (held if isinstance(held, list) else [held])]


def verb_of(tree):
    return tree["verb"]["id"]


def is_defined(tree):
    """Whether cmi5 defines what it means."""
    return CMI5 in activities(tree, "category")


def activity_of(tree):
    thing = tree["object"]
    return thing["id"] if thing.get("objectType", "Activity") == "Activity" else None


def registration_of(tree):
    registration = tree.get("context", {}).get("registration")
    return None if registration is None else registration.lower()


def extension_of(tree, name):
    """A list of the extension's value, or an empty one."""
    extensions = tree.get("context", {}).get("extensions", {})
    return [extensions[name]] if name in extensions else []


def voided_by(tree):
    """The id of the statement that it voids, if it voids one."""
    return tree["object"]["id"].lower() if verb_of(tree) == VOIDED else None


def own_id(tree):
    return tree["id"].lower() if "id" in tree else None


def is_number(value):
    return isinstance(value, (int, float)) and not isinstance(value, bool)


def exact(number):
    return fractions.Fraction(str(number))


def compared(tree):
    """What counts of a statement where two are compared."""
    tree = json.loads(json.dumps(tree))
    for name in ("id", "stored", "authority", "version"):
        tree.pop(name, None)
    tree["actor"].setdefault("objectType", "Agent")
    tree["object"].setdefault("objectType", "Activity")
    if tree["object"]["objectType"] == "StatementRef":
        tree["object"]["id"] = tree["object"]["id"].lower()
    context = tree.get("context", {})
    if "registration" in context:
        context["registration"] = context["registration"].lower()
    for name, held in context.get("contextActivities", {}).items():
        held = held if isinstance(held, list) else [held]
        context["contextActivities"][name] = [{"objectType": "Activity", **activity} for activity in held]
    return tree


# ---- what is held


class Held:
    """A statement, whose it is (as its authority names it), and when it was stored."""

    def __init__(self, id, tree, authority, stored=None):
        self.id, self.tree, self.authority, self.stored = id, tree, authority, stored


class Course:
    """An edition of a course, and its nodes in the order of the text. Its number among all editions is in their ids."""

    def __init__(self, tree, number, edition):
        self.tree, self.id, self.edition, self.nodes = tree, tree["id"], edition, []
        self.add(tree, "course", None, number)

    def add(self, tree, kind, parent, number):
        place = len(self.nodes)
        self.nodes.append({
            "id": tree["id"],
            "kind": kind,
            "parent": parent,
            "depth": 0 if parent is None else self.nodes[parent]["depth"] + 1,
            "activity": f"{BASE}activities/{number}/{place}",
            "tree": tree,
        })
        for child in tree.get("children", []):
            self.add(child, child["kind"], place, number)

    def unit(self, id):
        return next((node for node in self.nodes if node["id"] == id and node["kind"] == "unit"), None)

    def units_under(self, place):
        """The units that stand under a node, or the unit itself."""
        found = []
        for at, node in enumerate(self.nodes):
            holder = at
            while holder is not None and holder != place:
                holder = self.nodes[holder]["parent"]
            if holder == place and node["kind"] == "unit":
                found.append(node)
        return found


class Registration:
    def __init__(self, id, course, actor):
        self.id, self.course, self.actor = id, course, actor


class Launch:
    """A launch, and what the desk knows of its session."""

    def __init__(self, session, registration, unit, mode, key):
        self.session, self.registration, self.unit, self.mode, self.key = session, registration, unit, mode, key
        self.mastery = unit["tree"].get("masteryScore")
        self.token, self.abandoned, self.moment = None, False, None


# ---- the plain folds


def said(statements, registration):
    """The verbs and activities of what counts in a registration: of the statements that aren't voided, and of all."""
    voided = {voided_by(held.tree) for held in statements} - {None}
    standing, ever = set(), set()
    for held in statements:
        if is_defined(held.tree) and registration_of(held.tree) == registration:
            pair = (verb_of(held.tree), activity_of(held.tree))
            ever.add(pair)
            if verb_of(held.tree) == VOIDED or held.id not in voided:
                standing.add(pair)
    return standing, ever


def is_met(unit, standing):
    completed, passed = ((verb, unit["activity"]) in standing for verb in (COMPLETED, PASSED))
    asked = unit["tree"].get("moveOn", "NotApplicable")
    return (WAIVED, unit["activity"]) in standing or {
        "NotApplicable": True,
        "Passed": passed,
        "Completed": completed,
        "CompletedAndPassed": completed and passed,
        "CompletedOrPassed": completed or passed,
    }[asked]


def verdicts(statements, registration):
    """Whether each node is satisfied."""
    standing, _ = said(statements, registration.id)
    course = registration.course
    return [all(is_met(unit, standing) for unit in course.units_under(at)) for at in range(len(course.nodes))]


def owed(statements, registration):
    """The blocks and the course that are satisfied and of which that was never said, deeper ones first."""
    _, ever = said(statements, registration.id)
    told = zip(registration.course.nodes, verdicts(statements, registration))
    nodes = [
        node for node, satisfied in told
        if node["kind"] != "unit" and satisfied and (SATISFIED, node["activity"]) not in ever
    ]
    return sorted(nodes, key=lambda node: -node["depth"])


def own(statements, launch):
    return [held for held in statements if held.authority == f"session:{launch.session}"]


def has_own(statements, launch, verb):
    return any(is_defined(held.tree) and verb_of(held.tree) == verb for held in own(statements, launch))


def is_closed(statements, launch):
    return launch.abandoned or has_own(statements, launch, TERMINATED)


def last_event(statements, launch):
    return max([launch.moment] + [held.stored for held in own(statements, launch)])


def lasted(statements, launch):
    """The milliseconds from its beginning to its last statement, if it began."""
    begun = [
        held.stored for held in own(statements, launch)
        if is_defined(held.tree) and verb_of(held.tree) == INITIALIZED
    ]
    return own(statements, launch)[-1].stored - begun[0] if begun else None


def fits_mastery(launch, verb, tree):
    scaled = tree.get("result", {}).get("score", {}).get("scaled")
    if scaled is None or launch.mastery is None or verb not in (PASSED, FAILED):
        return True
    return (exact(scaled) >= exact(launch.mastery)) == (verb == PASSED)


def quotes_mastery(launch, tree):
    return all(
        launch.mastery is not None and is_number(value) and exact(value) == exact(launch.mastery)
        for value in extension_of(tree, MASTERY)
    )


def tells_result(verb, tree):
    result = tree.get("result", {})
    return {
        COMPLETED: result.get("completion") is True,
        PASSED: result.get("success") is True,
        FAILED: result.get("success") is False,
    }.get(verb, True)


def broken_by_session(statements, launch, tree):
    """The number of the least rule that a new statement of a session breaks, behind these."""
    verb, defined = verb_of(tree), is_defined(tree)
    results = verb in (COMPLETED, PASSED, FAILED)
    begun, ended = (has_own(statements, launch, known) for known in (INITIALIZED, TERMINATED))
    actor = tree["actor"]
    learner = launch.registration.actor["account"]
    standing, _ = said(statements, launch.registration.id)
    earlier = {at: (at, launch.unit["activity"]) in standing for at in (COMPLETED, PASSED)}
    rules = [
        (2, verb != VOIDED),
        (3, actor.get("objectType", "Agent") == "Agent" and actor.get("account") == learner),
        (4, registration_of(tree) == launch.registration.id),
        (5, not launch.abandoned),
        (6, not ended),
        (7, begun or (defined and verb == INITIALIZED)),
    ]
    if defined:
        rules += [
            (8, verb in (INITIALIZED, COMPLETED, PASSED, FAILED, TERMINATED)),
            (9, activity_of(tree) == launch.unit["activity"]),
            (10, extension_of(tree, SESSION_ID) == [launch.session]),
            (11, launch.unit["id"] in activities(tree, "grouping")),
            (12, not (verb == INITIALIZED and begun)),
            (13, not results or launch.mode == "Normal"),
            (14, not results or MOVE_ON in activities(tree, "category")),
            (15, tells_result(verb, tree)),
            (16, not (verb == COMPLETED and earlier[COMPLETED])),
            (17, not (verb == PASSED and earlier[PASSED])),
            (18, fits_mastery(launch, verb, tree)),
            (19, quotes_mastery(launch, tree)),
            (20, verb != TERMINATED or "duration" in tree.get("result", {})),
        ]
    return next((number for number, holds in rules if not holds), None)


def broken_outside(admin, tree):
    if is_defined(tree):
        return 1
    return 2 if verb_of(tree) == VOIDED and not admin else None


# ---- what the store says itself


def actor_text(actor):
    """An actor as the store tells it."""
    told = {"objectType": "Agent", "account": actor["account"]}
    return {**told, "name": actor["name"]} if "name" in actor else told


def saying(registration, node, verb, session, categories=(CMI5,), extensions=None, result=None, typed=False):
    thing = {"objectType": "Activity", "id": node["activity"]}
    if typed:
        thing["definition"] = {"type": ACTIVITY_TYPES[node["kind"]]}
    tree = {
        "actor": actor_text(registration.actor),
        "verb": {"id": verb, "display": {"en": verb.rsplit("/", 1)[1]}},
        "object": thing,
        "context": {
            "registration": registration.id,
            "contextActivities": {
                "grouping": [{"objectType": "Activity", "id": node["id"]}],
                "category": [{"objectType": "Activity", "id": name} for name in categories],
            },
            "extensions": {SESSION_ID: session, **(extensions or {})},
        },
    }
    return {**tree, "result": result} if result is not None else tree


def launched(registration, unit, mode, session):
    tree = unit["tree"]
    extensions = {
        EXTENSIONS + "launchmode": mode,
        EXTENSIONS + "launchurl": tree["url"],
        EXTENSIONS + "moveon": tree.get("moveOn", "NotApplicable"),
    }
    if "masteryScore" in tree:
        extensions[MASTERY] = tree["masteryScore"]
    if "launchParameters" in tree:
        extensions[EXTENSIONS + "launchparameters"] = tree["launchParameters"]
    return saying(registration, unit, LAUNCHED, session, extensions=extensions)


def span_text(milliseconds):
    milliseconds = min(milliseconds, 999_999_999_999)
    hundredths = milliseconds % 1000 // 10
    return f"PT{milliseconds // 1000}" + (f".{hundredths:02}" if hundredths else "") + "S"


def abandoned(statements, launch):
    """A list of what is said of a session that is abandoned."""
    span = lasted(statements, launch)
    if span is None:
        return []
    result = {"duration": span_text(span)}
    return [saying(launch.registration, launch.unit, ABANDONED, launch.session, result=result)]


def waived(registration, unit, reason):
    result = {"success": True, "completion": True, "extensions": {REASON: reason}}
    return saying(registration, unit, WAIVED, MADE, categories=(CMI5, MOVE_ON), result=result)


def satisfied(registration, node, session):
    return saying(registration, node, SATISFIED, session, typed=True)


def milliseconds_of(text):
    moment = datetime.datetime.strptime(text, "%Y-%m-%dT%H:%M:%S.%fZ")
    return calendar.timegm(moment.timetuple()) * 1000 + moment.microsecond // 1000


# ---- what is made up


class Maker:
    """Makes courses and statements up."""

    def __init__(self, source):
        self.random = source
        self.units = self.blocks = 0
        # ids that no statement has yet; some are voided before one comes
        self.coming = [self.id() for _ in range(4)]

    def id(self):
        return str(uuid.UUID(int=self.random.getrandbits(128), version=4))

    def chance(self, likelihood):
        return self.random.random() < likelihood

    def cased(self, id):
        return id.upper() if self.chance(0.2) else id

    # ---- courses

    def course(self, number):
        self.units = self.blocks = 0
        # how many units ask for something: where few do, several blocks are satisfied from the enrolment on
        self.asking = self.random.choice([0.9, 0.9, 0.9, 0])
        tree = {"id": f"http://course.example/{number}", "title": {"en": "C"}}
        return {**tree, "children": self.children(1, self.random.randrange(1, 4))}

    def children(self, depth, count):
        return [
            self.block(depth) if depth < 4 and self.chance(0.5) else self.unit() for _ in range(count)
        ]

    def block(self, depth):
        self.blocks += 1
        tree = {"kind": "block", "id": f"http://block.example/{self.blocks}", "title": {"en": "B"}}
        return {**tree, "children": self.children(depth + 1, self.random.randrange(1, 3))}

    def unit(self):
        self.units += 1
        number = self.units
        tree = {
            "kind": "unit",
            "id": f"http://unit.example/{number}",
            "title": {"en": "U"},
            "url": f"https://au.example/u{number}",
        }
        if self.chance(self.asking):
            tree["moveOn"] = self.random.choice(MOVE_ONS)
        if self.chance(0.6):
            tree["masteryScore"] = self.random.choice([0, 0.5, 0.8, 0.8, 1])
        if self.chance(0.3):
            tree["launchMethod"] = self.random.choice(["OwnWindow", "AnyWindow"])
        if self.chance(0.3):
            tree["launchParameters"] = "p"
        return tree

    def actor(self):
        number = self.random.randrange(4)
        actor = {"account": {"homePage": "https://p.example", "name": f"k{number}"}}
        if self.chance(0.5):
            actor["objectType"] = "Agent"
        return {**actor, "name": "N"} if self.chance(0.3) else actor

    # ---- statements of a session

    def score(self, launch, verb):
        """A score that fits, or none."""
        fitting = self.scores(launch, verb, True)
        return {"score": {"scaled": self.random.choice(fitting)}} if fitting and self.chance(0.7) else {}

    def scores(self, launch, verb, fit):
        """The scores that fit, or those that don't; often the mastery score itself."""
        scores = SCORES if launch.mastery is None else SCORES + [launch.mastery] * 4
        return [
            score for score in scores if fits_mastery(launch, verb, {"result": {"score": {"scaled": score}}}) == fit
        ]

    def result(self, launch, verb):
        if verb == COMPLETED:
            return {"completion": True}
        if verb in (PASSED, FAILED):
            return {"success": verb == PASSED, **self.score(launch, verb)}
        return {"duration": "PT1M"} if verb == TERMINATED else {}

    def spoken(self, launch, verb):
        """A statement of a session as it has to be."""
        categories = [CMI5, MOVE_ON] if verb in (COMPLETED, PASSED, FAILED) else [CMI5]
        grouping = {"id": launch.unit["id"]}
        extensions = {SESSION_ID: launch.session}
        if launch.mastery is not None and self.chance(0.3):
            extensions[MASTERY] = launch.mastery
        tree = {
            "actor": dict(launch.registration.actor),
            "verb": {"id": verb},
            "object": {"id": launch.unit["activity"]},
            "context": {
                "registration": self.cased(launch.registration.id),
                "contextActivities": {
                    "grouping": grouping if self.chance(0.3) else [grouping, {"id": "http://other.example/g"}],
                    "category": [{"id": name} for name in categories],
                },
                "extensions": extensions,
            },
        }
        result = self.result(launch, verb)
        return {**tree, "result": result} if result else tree

    def spoil(self, launch, tree, known):
        """Makes one thing wrong, as a rule; known are ids of registrations, sessions and activities."""
        context, verb = tree["context"], verb_of(tree)
        kinds = context["contextActivities"]
        weights = [1, 1, 1, 3] + [1] * 10
        weights[9] = 3 if MOVE_ON in activities(tree, "category") else 0
        weights[10] = {TERMINATED: 12, INITIALIZED: 1}.get(verb, 3)
        weights[11] = 8 if verb in (PASSED, FAILED) else 1
        weights[12] = 4
        kind = self.random.choices(range(14), weights)[0]
        if kind == 0:
            other = {"homePage": "https://p.example", "name": "nobody"}
            group = {"objectType": "Group", "account": dict(launch.registration.actor["account"])}
            tree["actor"] = group if self.chance(0.5) else {"account": other}
        elif kind == 1:
            context["registration"] = self.random.choice(known["registrations"])
        elif kind == 2:
            context.pop("registration", None)
        elif kind == 3:
            kinds["category"] = [one for one in kinds["category"] if one["id"] != CMI5]
        elif kind == 4:
            tree["verb"] = {"id": self.random.choice(["http://verb.example/did", SATISFIED, WAIVED, LAUNCHED])}
        elif kind == 5:
            agent = {"objectType": "Agent", "mbox": "mailto:a@example.org"}
            tree["object"] = agent if self.chance(0.3) else {"id": self.random.choice(known["activities"])}
        elif kind == 6:
            other = [launch.session.upper(), self.random.choice(known["sessions"]), 5]
            context.setdefault("extensions", {})[SESSION_ID] = self.random.choice(other)
        elif kind == 7:
            context.pop("extensions", None)
        elif kind == 8:
            kinds["grouping"] = [{"id": launch.unit["activity"]}]
        elif kind == 9:
            kinds["category"] = [one for one in kinds["category"] if one["id"] != MOVE_ON]
        elif kind == 10:
            tree["result"] = self.random.choice([{}, {"completion": False}, {"success": True}, {"success": False}])
        elif kind == 11:
            scores = self.scores(launch, verb, False) or SCORES
            tree["result"] = {**tree.get("result", {}), "score": {"scaled": self.random.choice(scores)}}
        elif kind == 12:
            value = self.random.choice([launch.mastery, 0.8, 0.3, "0.8", True])
            context.setdefault("extensions", {})[MASTERY] = 0.7 if value is None else value
        else:
            tree["verb"] = {"id": VOIDED}
            tree["object"] = {"objectType": "StatementRef", "id": self.random.choice(self.coming)}

    def verb(self, begun):
        if not begun and self.chance(0.8):
            return INITIALIZED
        verbs = [INITIALIZED, COMPLETED, PASSED, FAILED, TERMINATED, "http://verb.example/answered"]
        return self.random.choices(verbs, [1, 4, 4, 3, 2, 1.5])[0]

    def statement(self, launch, begun, known):
        """A new statement of a session, right or wrong."""
        verb = self.verb(begun)
        tree = self.spoken(launch, verb)
        if not verb.startswith(ADL):
            del tree["context"]["contextActivities"]
        elif self.chance(0.2):
            self.spoil(launch, tree, known)
            # what voids is no statement any more if its object is something else
            if self.chance(0.2) and verb_of(tree) != VOIDED:
                self.spoil(launch, tree, known)
        return self.named(tree)

    def named(self, tree):
        """The statement under an id that none has, or under none."""
        if self.chance(0.15):
            return tree
        if self.chance(0.3):
            at = self.random.randrange(len(self.coming))
            id, self.coming[at] = self.coming[at], self.id()
            return {"id": id, **tree}
        return {"id": self.cased(self.id()), **tree}

    # ---- statements that were held before

    def repeat(self, held):
        """A held statement again, alike or not."""
        tree = json.loads(json.dumps({**held.tree, "id": held.id}))
        if self.chance(0.3):
            tree["verb"]["display"] = {"en": f"d{self.random.randrange(1000)}"}
        if "registration" in tree.get("context", {}):
            tree["context"]["registration"] = self.cased(registration_of(tree))
        if self.chance(0.3):
            tree = dict(reversed(list(tree.items())))
        return tree

    # ---- statements of others

    def plain(self, known):
        """A statement of no session, often about a node and a registration; known as for what is spoiled."""
        tree = {
            "actor": {"mbox": "mailto:a@example.org"},
            "verb": {"id": self.random.choice([PASSED, TERMINATED, "http://verb.example/did"])},
            "object": {"id": "http://activity.example/1"},
            "context": {},
        }
        if self.chance(0.5):
            tree["verb"]["id"] = self.random.choice([COMPLETED, PASSED, WAIVED, SATISFIED, TERMINATED])
            tree["object"]["id"] = self.random.choice(known["activities"])
            tree["context"]["registration"] = self.random.choice(known["registrations"])
        if self.chance(0.2):
            tree["context"]["contextActivities"] = {"category": {"id": CMI5}}
        return self.named(tree)

    def voiding(self, id):
        tree = {
            "actor": {"mbox": "mailto:a@example.org"},
            "verb": {"id": VOIDED},
            "object": {"objectType": "StatementRef", "id": self.cased(id)},
        }
        return self.named(tree)


# ---- the comparison


class History:
    """One history: the program's, and what the folds say of it."""

    def __init__(self, program, folder, source):
        self.random, self.maker = source, Maker(source)
        self.statements, self.courses, self.registrations, self.launches = [], [], [], []
        # the sessions of enrolments and waivers, and all ids that the store may not make again
        self.made_sessions, self.used = [], set()
        self.entries, self.moment = 1, 0
        self.comparisons, self.refused, self.steps = 0, collections.Counter(), []
        self.server = Server(program, folder)

    # ---- asking

    def ask(self, method, path, body=None, token=ADMIN):
        self.steps.append(f"{method} {path} {token} {'' if body is None else json.dumps(body)}")
        status, answer, _ = self.server.ask(method, path, body, token)
        self.steps[-1] += f" => {status} {'' if answer is None else json.dumps(answer)}"
        return status, answer

    def check(self, what, got, wanted):
        self.comparisons += 1
        if got != wanted:
            raise Difference(f"{what}\n  got    {got}\n  wanted {wanted}")

    def note(self, answer):
        """Counts a refusal."""
        if answer[0] >= 400:
            self.refused[answer[1]["error"]] += 1

    def check_new(self, what, id):
        """An id that the store made is none that was used."""
        self.check(what, (len(str(id)), id in self.used, str(id).lower() == id), (36, False, True))
        self.used.add(id)

    def check_place(self, what, text):
        """A key or a token ends with the place of its entry."""
        self.check(what, text[32:], f"-{self.entries - 1}")

    # ---- what an entry brought

    def take_in(self, news, kept=True):
        """Compares the statements that are new with those that the server lists, and takes them in."""
        before, after = len(self.statements), len(self.statements) + len(news)
        path = f"/xapi/statements/more?asof={after}&after={before - 1}&ascending=true"
        path = path if before else "/xapi/statements?ascending=true"
        status, page, through = self.server.ask("GET", path)
        self.check(f"status of {path}", status, 200)
        moment = milliseconds_of(through)
        self.check("the moments rise", moment >= self.moment, True)
        if not kept:
            self.check("no entry is made", (moment, news), (self.moment, []))
        self.entries, self.moment = self.entries + (1 if kept else 0), moment
        voided = {voided_by(held.tree) for held in self.statements + news} - {None}
        shown = [held for held in news if verb_of(held.tree) == VOIDED or held.id not in voided]
        self.check("how many are listed", len(page["statements"]), len(shown))
        session = None
        for held, listed in zip(shown, page["statements"]):
            session = self.compare(held, listed, session)
        for held in news:
            if held not in shown:
                path = f"/xapi/statements?voidedStatementId={held.id}"
                status, listed, _ = self.server.ask("GET", path)
                self.check(f"status of {path}", status, 200)
                self.compare(held, listed, None)
        for held in news:
            held.stored = moment
            self.used.add(held.id)
        self.statements += news
        self.check("there is no statement more", self.server.ask(
            "GET", f"/xapi/statements/more?asof={after + 1}&after=0")[:2], (400, {"error": "P14"}))

    def compare(self, held, listed, session):
        """Compares one statement, and gives the session that the store made for its entry, if it is known."""
        if held.id is None:
            self.check_new("the id of a statement that the store makes", listed["id"])
            held.id = listed["id"]
        if held.authority == "desk" and held.tree["context"]["extensions"][SESSION_ID] == MADE:
            if session is None:
                session = listed["context"]["extensions"][SESSION_ID]
                self.check_new("a session that the store makes", session)
                self.made_sessions.append(session)
            held.tree["context"]["extensions"][SESSION_ID] = session
        shown = dict(listed)
        self.check("its timestamp", shown.pop("timestamp"), listed["stored"])
        self.check("its authority", listed["authority"]["account"]["name"], held.authority)
        self.check("its id", listed["id"], held.id)
        self.check("what it says", compared(shown), compared(held.tree))
        self.check("when it was stored", milliseconds_of(listed["stored"]), self.moment)
        return session

    def by_desk(self, trees):
        return [Held(None, tree, "desk") for tree in trees]

    def owed(self, new, registration, session):
        """What the store says behind these new statements."""
        nodes = owed(self.statements + new, registration)
        return new + self.by_desk(satisfied(registration, node, session) for node in nodes)

    # ---- how far learners have come

    def check_verdicts(self):
        for registration in self.registrations:
            course, told = registration.course, verdicts(self.statements, registration)
            nodes = [
                {"id": node["id"], "kind": node["kind"], "satisfied": met} for node, met in zip(course.nodes, told)
            ]
            wanted = {
                "registration": registration.id, "course": course.id, "edition": course.edition,
                "satisfied": told[0], "nodes": nodes,
            }
            path = f"/desk/registrations/{registration.id}"
            self.check(path, self.server.ask("GET", path)[:2], (200, wanted))

    # ---- courses and registrations

    def editions(self, id):
        return [course for course in self.courses if course.id == id]

    def take_up(self, tree):
        """A course is an edition of its id, unless it is the same as the newest."""
        earlier = self.editions(tree["id"])
        same = earlier != [] and earlier[-1].tree == tree
        edition = len(earlier) + (0 if same else 1)
        answer = (200, {"course": tree["id"], "edition": edition})
        self.check("a course", self.ask("POST", "/desk/courses", tree), answer)
        if not same:
            self.courses.append(Course(tree, len(self.courses), edition))
        self.take_in([], kept=not same)

    def add_course(self):
        self.take_up(self.maker.course(len({course.id for course in self.courses})))

    def course_again(self):
        """The newest edition or an earlier one, one of them with another title, or a corrected course."""
        course = self.random.choice(self.courses)
        if self.maker.chance(0.5):
            self.take_up(course.tree)
        elif self.maker.chance(0.5):
            self.take_up({**course.tree, "title": {"en": "Another"}})
        else:
            self.take_up({**self.maker.course(0), "id": course.id})

    def enrol(self):
        course, actor = self.random.choice(self.courses[:1] * 3 + self.courses), self.maker.actor()
        wanted, editions = {"course": course.id, "actor": actor}, self.editions(course.id)
        if self.registrations and self.maker.chance(0.1):
            answer = self.ask("POST", "/desk/registrations", {**wanted, "edition": len(editions) + 1})
            self.check("an edition that isn't there", answer, (404, {"error": "404"}))
            self.note(answer)
            self.take_in([], kept=False)
            return
        if self.maker.chance(0.5):
            wanted["edition"] = course.edition
        else:
            course = editions[-1]
        status, body = self.ask("POST", "/desk/registrations", wanted)
        self.check("an enrolment", (status, list(body)), (200, ["registration"]))
        self.check_new("a registration", body["registration"])
        registration = Registration(body["registration"], course, actor)
        self.registrations.append(registration)
        self.take_in(self.owed([], registration, MADE))

    def unit_of(self, registration):
        """The id of a unit, mostly, and its node if it is one."""
        node = self.random.choice(registration.course.units_under(0) * 6 + registration.course.nodes)
        id = "http://unit.example/none" if self.maker.chance(0.03) else node["id"]
        return id, registration.course.unit(id)

    # ---- launches

    def launch(self):
        registration = self.random.choice(self.registrations)
        id, unit = self.unit_of(registration)
        body, mode = {"unit": id}, "Normal"
        if self.maker.chance(0.5):
            mode = self.random.choice(["Normal"] * 4 + ["Browse", "Review"])
            body["mode"] = mode
        if self.maker.chance(0.2):
            body["returnURL"] = "https://return.example/"
        status, answer = self.ask("POST", f"/desk/registrations/{registration.id}/launches", body)
        if unit is None:
            self.check("a launch of what isn't there", (status, answer), (404, {"error": "404"}))
            self.take_in([], kept=False)
            return
        self.check("a launch", (status, sorted(answer)), (200, ["launchMethod", "session", "url"]))
        self.check_new("a session", answer["session"])
        self.check("how it is shown", answer["launchMethod"], unit["tree"].get("launchMethod", "AnyWindow"))
        key = self.check_address(answer["url"], registration, unit)
        begun = Launch(answer["session"], registration, unit, mode, key)
        left = [one for one in self.launches if self.is_open(one) and self.is_of(one, registration, unit)]
        trees = [tree for one in left for tree in abandoned(self.statements, one)]
        self.take_in(self.by_desk(trees + [launched(registration, unit, mode, begun.session)]))
        self.check_place("a key", key)
        for one in left:
            one.abandoned = True
        begun.moment = self.moment
        self.launches.append(begun)

    def check_address(self, text, registration, unit):
        """Compares a launch address, and gives its key."""
        address, query = text.split("?", 1)
        pairs = dict(urllib.parse.parse_qsl(query, keep_blank_values=True))
        fetch = pairs.pop("fetch", "")
        actor = json.loads(pairs.pop("actor", "null"))
        self.check("the address", (address, pairs, actor, fetch.startswith(BASE + "fetch/")), (
            unit["tree"]["url"],
            {"endpoint": BASE + "xapi/", "registration": registration.id, "activityId": unit["activity"]},
            actor_text(registration.actor),
            True,
        ))
        return fetch[len(BASE + "fetch/"):]

    def is_of(self, launch, registration, unit):
        return launch.registration is registration and launch.unit is unit

    def is_open(self, launch):
        return not is_closed(self.statements, launch)

    def fresh(self):
        """The launches whose key gives a token."""
        return [launch for launch in self.launches if launch.token is None and self.is_open(launch)]

    def fetch(self):
        if not self.launches or self.maker.chance(0.03):
            self.check("no key", self.ask("POST", "/fetch/none", None), (404, {"error": "404"}))
            self.take_in([], kept=False)
            return
        fresh = self.fresh()
        launch = self.random.choice(fresh if fresh and self.maker.chance(0.85) else self.launches)
        answer = self.ask("POST", f"/fetch/{launch.key}", None)
        if launch.token is not None:
            told = {"error-code": "1", "error-text": "The fetch key was used."}
        elif not self.is_open(launch):
            told = {"error-code": "2", "error-text": "The session is closed."}
        else:
            self.check("a fetch", (answer[0], list(answer[1])), (200, ["auth-token"]))
            self.take_in([])
            launch.token, launch.moment = answer[1]["auth-token"], self.moment
            self.check_place("a token", launch.token)
            return
        self.check("a fetch that gives nothing", answer, (200, told))
        self.take_in([], kept=False)

    # ---- statements

    def known(self):
        """Ids that a statement may name wrongly."""
        return {
            "registrations": [registration.id for registration in self.registrations] + [self.maker.id()],
            "sessions": [launch.session for launch in self.launches] + self.made_sessions,
            "activities": [node["activity"] for course in self.courses for node in course.nodes],
        }

    def under(self, id):
        return next((held for held in self.statements if id is not None and held.id == id), None)

    def refusal(self, trees, who, launch):
        """What is answered if these statements aren't kept, as a caller sends them."""
        ids = [own_id(tree) for tree in trees if "id" in tree]
        if len(set(ids)) < len(ids):
            return 400, {"error": "B9"}
        before = list(self.statements)
        for tree in trees:
            held = self.under(own_id(tree))
            if held is not None:
                if compared(held.tree) != compared(tree):
                    return 409, {"error": "409", "id": held.id}
                continue
            rule = broken_outside(who == "admin", tree)
            if launch is not None:
                rule = broken_by_session(before, launch, tree)
            if rule is not None:
                return 403, {"error": f"C{rule}"}
            before.append(Held(own_id(tree), tree, who))
        return None

    def send(self, trees, who, token, launch=None):
        """Sends statements in one of three ways, and compares what comes of it."""
        put = len(trees) == 1 and self.maker.chance(0.3)
        if put:
            id = own_id(trees[0]) or self.maker.id()
            tree = trees[0] if self.maker.chance(0.5) else {k: v for k, v in trees[0].items() if k != "id"}
            trees = [{**tree, "id": id}]
            answer = self.ask("PUT", f"/xapi/statements?statementId={self.maker.cased(id)}", tree, token)
        else:
            alone = len(trees) == 1 and self.maker.chance(0.5)
            answer = self.ask("POST", "/xapi/statements", trees[0] if alone else trees, token)
        refused = self.refusal(trees, who, launch)
        if refused is not None:
            self.check("statements that aren't kept", answer, refused)
            self.note(answer)
            self.take_in([], kept=False)
            return
        ids = [own_id(tree) for tree in trees]
        if put:
            self.check("a statement that is put", answer, (204, None))
        else:
            self.check("statements", (answer[0], len(answer[1])), (200, len(ids)))
            for at, id in enumerate(ids):
                if id is None:
                    self.check_new("the id of a statement", answer[1][at])
                    ids[at] = answer[1][at]
            self.check("the ids of statements", answer[1], ids)
        new = [Held(id, tree, who) for id, tree in zip(ids, trees) if self.under(id) is None]
        if new and launch is not None:
            self.take_in(self.owed(new, launch.registration, launch.session))
        else:
            self.take_in(new, kept=bool(new))

    def say(self):
        """A session speaks. If none is there to speak, one is fetched or launched, mostly also if all have ended."""
        speaking = [launch for launch in self.launches if launch.token is not None]
        opened = [launch for launch in speaking if self.is_open(launch)]
        if not speaking or (not opened and self.maker.chance(0.8)):
            if self.fresh():
                self.fetch()
            else:
                self.launch()
            return
        launch = self.random.choice(opened if opened and self.maker.chance(0.85) else speaking)
        begun, trees = has_own(self.statements, launch, INITIALIZED), []
        for _ in range(self.random.choice([1, 1, 1, 2, 2, 3, 4])):
            if self.statements and self.maker.chance(0.08):
                trees.append(self.maker.repeat(self.random.choice(self.statements)))
            else:
                trees.append(self.maker.statement(launch, begun, self.known()))
                begun = True
        self.send(trees, f"session:{launch.session}", launch.token, launch)

    def void(self):
        """An admin voids what is held or is still to come, in a batch with others or alone."""
        trees = []
        for _ in range(self.random.choice([1, 1, 1, 2])):
            telling = [held for held in self.statements if is_defined(held.tree)]
            if self.maker.chance(0.35) or not telling:
                id = self.random.choice(self.maker.coming)
            else:
                id = self.random.choice(telling if self.maker.chance(0.85) else self.statements).id
            trees.append(self.maker.voiding(id))
        self.send(trees, "admin", ADMIN)

    def others(self):
        """An admin or a provider says something."""
        who, token = self.random.choice([("admin", ADMIN), ("provider:0", self.provider)])
        known = self.known()
        trees = [self.maker.plain(known) for _ in range(self.random.choice([1, 1, 2]))]
        if self.maker.chance(0.2):
            trees.append(self.maker.voiding(self.random.choice(self.maker.coming)))
        if self.maker.chance(0.2):
            trees.append(self.maker.repeat(self.random.choice(self.statements)))
        if self.maker.chance(0.03):
            trees += [{**self.maker.plain(known), "id": self.maker.coming[0]} for _ in range(2)]
        self.send(trees, who, token)

    # ---- waivers

    def waive(self):
        registration = self.random.choice(self.registrations)
        id, unit = self.unit_of(registration)
        reason = self.random.choice(REASONS)
        answer = self.ask("POST", f"/desk/registrations/{registration.id}/waive", {"unit": id, "reason": reason})
        if unit is None:
            self.check("a waiver of what isn't there", answer, (404, {"error": "404"}))
            self.take_in([], kept=False)
            return
        self.check("a waiver", answer, (204, None))
        standing, _ = said(self.statements, registration.id)
        if (WAIVED, unit["activity"]) in standing:
            self.take_in([], kept=False)
        else:
            new = self.by_desk([waived(registration, unit, reason)])
            self.take_in(self.owed(new, registration, MADE))

    # ---- sessions that are abandoned

    def abandon(self):
        if not self.launches or self.maker.chance(0.1):
            id = self.random.choice(self.made_sessions + [self.maker.id()])
            answer = self.ask("POST", f"/desk/sessions/{id}/abandon", {})
            self.check("no session", answer, (404, {"error": "404"}))
            self.take_in([], kept=False)
            return
        launch = self.random.choice(self.launches)
        answer = self.ask("POST", f"/desk/sessions/{self.maker.cased(launch.session)}/abandon", {})
        self.check("a session that is abandoned", answer, (204, None))
        was_open = self.is_open(launch)
        self.take_in(self.by_desk(abandoned(self.statements, launch) if was_open else []), kept=was_open)
        launch.abandoned = launch.abandoned or was_open

    def idle_ones(self, idle, moment):
        return [
            launch for launch in self.launches
            if self.is_open(launch) and last_event(self.statements, launch) + 1000 * idle <= moment
        ]

    def sweep(self):
        idle, clock = self.random.choice([0, 1, 1, 1, 3600]), time.time_ns() // 1_000_000
        status, body = self.ask("POST", "/desk/sweep", {"idle": idle})
        self.check("a sweep", (status, list(body)), (200, ["abandoned"]))
        if not body["abandoned"]:
            # the store read its clock after this one was read
            missed = self.idle_ones(idle, max(clock, self.moment))
            self.check("idle sessions that weren't swept", [launch.session for launch in missed], [])
            self.take_in([], kept=False)
            return
        moment = milliseconds_of(self.server.ask("GET", "/xapi/statements?limit=1")[2])
        swept = self.idle_ones(idle, moment)
        self.check("what is swept", body["abandoned"], [launch.session for launch in swept])
        self.take_in(self.by_desk(tree for launch in swept for tree in abandoned(self.statements, launch)))
        for launch in swept:
            launch.abandoned = True

    # ---- other steps

    def barred(self):
        """The desk is asked by others than an admin."""
        path, tokens = "/desk/sweep", [self.provider] + [launch.token for launch in self.launches if launch.token]
        answer = self.ask("POST", path, {"idle": 0}, self.random.choice(tokens))
        self.check("the desk by another", answer, (403, {"error": "A2"}))
        self.check("the desk by nobody", self.ask("POST", path, {"idle": 0}, "nobody"), (401, {"error": "A1"}))
        self.take_in([], kept=False)

    def nowhere(self):
        path = f"/desk/registrations/{self.maker.id()}"
        self.check("no registration", self.ask("GET", path), (404, {"error": "404"}))
        waiver = {"unit": "http://unit.example/1", "reason": REASONS[0]}
        self.check("no registration", self.ask("POST", path + "/waive", waiver), (404, {"error": "404"}))
        self.take_in([], kept=False)

    def restart(self):
        """The program is killed and started again: it tells the same."""
        self.steps.append("killed and started again")
        self.server.stop()
        self.server.start()
        self.take_in([], kept=False)

    def wait(self):
        """So long that a session can be idle for a second."""
        self.steps.append("a second passes")
        time.sleep(1.05)

    # ---- all of them

    def begin(self):
        self.server.found()
        status, body = self.ask("POST", "/desk/callers", {"name": "p"})
        self.check("a provider", (status, body["caller"]), (200, 0))
        self.provider = body["token"]
        self.entries += 1
        self.check_place("a provider's token", self.provider)
        self.send([{"actor": {"mbox": "mailto:a@b"}, "verb": {"id": "http://v/1"}, "object": {"id": "http://a/1"}}],
                  "admin", ADMIN)
        for _ in range(self.random.choice([1, 2])):
            self.add_course()
        for _ in range(2):
            self.enrol()
        self.check_verdicts()

    def step(self):
        kinds = {
            self.say: 40,
            self.launch: 12,
            self.fetch: 10,
            self.void: 9,
            self.waive: 5,
            self.others: 5,
            self.abandon: 3,
            self.sweep: 2,
            self.enrol: 3 if len(self.registrations) < 6 else 0,
            self.course_again: 4,
            self.barred: 0.5,
            self.nowhere: 0.5,
            self.restart: 0.7,
            self.wait: 0.7,
        }
        self.random.choices(list(kinds), list(kinds.values()))[0]()
        self.check_verdicts()

    def run(self, steps):
        self.begin()
        for _ in range(steps):
            self.step()
        self.restart()
        self.check_verdicts()


def main():
    if len(sys.argv) not in (4, 5):
        sys.exit(__doc__)
    program, seed, histories = sys.argv[1], int(sys.argv[2]), int(sys.argv[3])
    steps = int(sys.argv[4]) if len(sys.argv) == 5 else 80
    print(f"seed {seed}", flush=True)
    editions = statements = comparisons = 0
    refused = collections.Counter()
    with tempfile.TemporaryDirectory() as folder:
        for number in range(histories):
            history = History(program, folder, random.Random(seed * 1_000_000 + number))
            try:
                history.run(steps)
            except Exception as fault:
                told = fault if isinstance(fault, Difference) else traceback.format_exc()
                print(f"difference in history {number} of seed {seed}: {told}\nits last steps:")
                for step in history.steps[-12:]:
                    print(f"  {step}")
                sys.exit(1)
            finally:
                history.server.stop()
            editions, statements = editions + len(history.courses), statements + len(history.statements)
            comparisons += history.comparisons
            refused += history.refused
    told = ", ".join(f"{rule} {count}" for rule, count in sorted(refused.items(), key=lambda one: (len(one[0]), one)))
    print(f"refused: {told}")
    told = f"{editions} editions, {statements} statements, {comparisons} comparisons"
    print(f"{histories} histories of {steps} steps: {told}: no difference")


if __name__ == "__main__":
    main()
