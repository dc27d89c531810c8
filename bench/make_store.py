#!/usr/bin/env python3
"""Makes a store file of N statements by the formats of docs/FORMATS.md, without the program: a second hand that writes
the journal, for measuring and for holding the program against it.

    make_store.py FILE N [--format 1|2] [--limit BYTES] [--table ROWS] [--documents M] [--refer chain|circle]
                         [--courses C [--editions E] [--units U]]

The format is 2 if it isn't said; 1 is that of version 0.1.0, for migrations.
ROWS is a second file: the same statements as rows of a table, each a place, a verb, the name of its agent, a registration
and the text that a page shows of it, parted by tabs.
Statement i has the id 00000000-0000-4000-8000-<i in twelve hexadecimal digits>. M state documents of 1,024 bytes come
after the statements: document i is s<i mod 10> of the agent u<i / 10>. With --refer each statement refers to the one
before it; in a circle the first refers to the last, in a chain to none. Last come C courses, http://c.invalid/0 and so on,
of U units each (1 if it isn't said; 87 make 20 kB), all of them E times, each time with another title."""
import argparse
import datetime
import json
import struct

MOMENT = 1_700_000_000_000


def written(tree):
    return json.dumps(tree, separators=(",", ":"), ensure_ascii=False).encode()


def entry(moment, draw, command):
    return written({"caller": "*", "moment": moment, "draw": draw, "command": command})


def statement(i):
    return {
        "id": f"00000000-0000-4000-8000-{i:012x}",
        "actor": {"objectType": "Agent", "account": {"homePage": "https://l.invalid", "name": f"u{i % 20}"}},
        "verb": {"id": f"http://v.invalid/{i % 7}", "display": {"en": "did", "de": "tat"}},
        "object": {
            "objectType": "Activity",
            "id": f"http://a.invalid/{i % 50}",
            "definition": {"name": {"en": f"Activity {i % 50}"}, "description": {"en": "A part of a course that was made up for measuring."}},
        },
        "result": {"score": {"scaled": 0.80, "raw": 8, "min": 0, "max": 10}, "success": True, "completion": True, "duration": "PT12.34S"},
        "context": {"registration": f"00000000-0000-4000-9000-{i % 100:012x}", "language": "en"},
        "timestamp": "2023-11-14T22:13:20.000Z",
    }


def referring(i, number, shape):
    """The statement as one of a chain or a circle."""
    before = number - 1 if i == 0 and shape == "circle" else i - 1
    if before < 0:
        return statement(i)
    return {**statement(i), "object": {"objectType": "StatementRef", "id": f"00000000-0000-4000-8000-{before:012x}"}}


def shown(i):
    """The statement as the store shows it."""
    moment = datetime.datetime.fromtimestamp((MOMENT + i) / 1000, datetime.timezone.utc)
    account = {"homePage": "https://lrs.invalid/callers", "name": "admin"}
    return {
        **statement(i),
        "stored": moment.strftime("%Y-%m-%dT%H:%M:%S.") + f"{(MOMENT + i) % 1000:03d}Z",
        "authority": {"objectType": "Agent", "name": "admin", "account": account},
        "version": "1.0.0",
    }


def document(i):
    text = b'{"page":%d,"notes":"' % i
    return {
        "how": "put",
        "activity": "http://a.invalid/0",
        "agent": {"account": {"homePage": "https://l.invalid", "name": f"u{i // 10}"}},
        "state": f"s{i % 10}",
        "type": "application/json",
        "bytes": (text + b"n" * (1022 - len(text)) + b'"}').hex(),
    }


def unit(i):
    return {
        "kind": "unit",
        "id": f"http://c.invalid/u{i}",
        "title": {"en": f"Unit {i}"},
        "description": {"en": "A part of a course that was made up for measuring."},
        "url": f"https://content.invalid/u{i}/index.html",
        "moveOn": "Passed",
        "masteryScore": 0.80,
    }


def course(i, edition, units):
    title = {"en": f"Course {i}, edition {edition}"}
    return {"id": f"http://c.invalid/{i}", "title": title, "children": [unit(place) for place in range(units)]}


class Store:
    """A store that is written frame by frame."""

    def __init__(self, out, version, limit):
        self.out, self.version, self.number = out, version, 0
        out.write(b"\x01LRSJRNL" + struct.pack(">BQ", version, limit))

    def add(self, payload):
        number = struct.pack(">Q", self.number) if self.version == 2 else b""
        self.out.write(b"\x01" + struct.pack(">I", len(payload)) + number + payload)
        self.number += 1

    def end(self):
        self.out.write(b"\x00")


def main():
    words = argparse.ArgumentParser()
    words.add_argument("file")
    words.add_argument("number", type=int)
    words.add_argument("--format", type=int, choices=[1, 2], default=2)
    words.add_argument("--limit", type=int, default=268_435_456)
    words.add_argument("--table")
    words.add_argument("--documents", type=int, default=0)
    words.add_argument("--refer", choices=["chain", "circle"])
    words.add_argument("--courses", type=int, default=0)
    words.add_argument("--editions", type=int, default=1)
    words.add_argument("--units", type=int, default=1)
    words = words.parse_args()
    with open(words.file, "wb") as out:
        store = Store(out, words.format, words.limit)
        store.add(entry(MOMENT, "0" * 64, {"found": {"admin": "adminadmin", "base": "http://127.0.0.1:8080/"}}))
        for i in range(words.number):
            made = statement(i) if words.refer is None else referring(i, words.number, words.refer)
            put = {"put": {"id": f"00000000-0000-4000-8000-{i:012x}", "statement": made}}
            store.add(entry(MOMENT + i, f"{i:032x}{i:032x}", put))
        for i in range(words.documents):
            store.add(entry(MOMENT + words.number + i, f"{i:032x}{i:032x}", {"state": document(i)}))
        for i in range(words.courses * words.editions):
            tree = course(i % words.courses, i // words.courses + 1, words.units)
            store.add(entry(MOMENT + words.number + words.documents + i, f"{i:032x}{i:032x}", {"course": {"tree": tree}}))
        store.end()
    if words.table is not None:
        with open(words.table, "wb") as out:
            for i in range(words.number):
                made = shown(i)
                verb, agent = made["verb"]["id"], made["actor"]["account"]["name"]
                row = f"{i}\t{verb}\t{agent}\t{made['context']['registration']}\t"
                out.write(row.encode() + written(made) + b"\n")


main()
