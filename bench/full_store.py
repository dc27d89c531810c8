#!/usr/bin/env python3
"""Shows that what a full store refuses leaves nothing behind: sends it batches of statements without ids, each answered
507, and then as many questions for a statement that isn't there, each answered 404. Each answer leaves a receipt. Prints
how many KB the server's process had behind the first tenth of each, and how many more at their end.

    full_store.py PROGRAM [--batches N] [--statements M] [--held H]

PROGRAM is the built program (crates/kilnlime/out/kilnlime)."""
import argparse
import json
import pathlib
import socket
import subprocess
import sys
import tempfile

PER_CONNECTION = 1000
FIELDS = "X-Experience-API-Version: 1.0.3\r\nAuthorization: Basic adminadmin\r\n"


def batch(statements):
    """A request to keep so many statements without ids."""
    one = {"actor": {"mbox": "mailto:a@b"}, "verb": {"id": "http://v/1"}, "object": {"id": "http://a/1"}}
    body = json.dumps([one] * statements, separators=(",", ":")).encode()
    return f"POST /xapi/statements HTTP/1.1\r\n{FIELDS}Content-Length: {len(body)}\r\n\r\n".encode() + body


def question():
    path = "/xapi/statements?statementId=ffffffff-ffff-4fff-8fff-ffffffffffff"
    return f"GET {path} HTTP/1.1\r\n{FIELDS}\r\n".encode()


def kilobytes(process):
    """The resident memory of a process."""
    for line in pathlib.Path(f"/proc/{process.pid}/status").read_text().splitlines():
        if line.startswith("VmRSS:"):
            return int(line.split()[1])
    sys.exit("the server ended")


def take_response(stream):
    """The status of the next response, whose body is read, too."""
    status = stream.readline().split()
    length = 0
    for line in iter(stream.readline, b"\r\n"):
        if line.lower().startswith(b"content-length:"):
            length = int(line.split(b":")[1])
    stream.read(length)
    return int(status[1]) if len(status) > 1 else 0


def send(port, request, number, status, process):
    """Sends a request so often, and gives the process's memory behind the first tenth and at the end."""
    early = None
    for first in range(0, number, PER_CONNECTION):
        with socket.create_connection(("127.0.0.1", port)) as link, link.makefile("rb") as stream:
            for k in range(first, min(first + PER_CONNECTION, number)):
                link.sendall(request)
                found = take_response(stream)
                if found != status:
                    sys.exit(f"request {k} is answered {found}")
                if k + 1 == max(number // 10, 1):
                    early = kilobytes(process)
    return early, kilobytes(process)


def make_full(file, held):
    """A store that has no room for one byte more."""
    maker = pathlib.Path(__file__).resolve().parent / "make_store.py"
    subprocess.run([maker, file, str(held)], check=True)
    subprocess.run([maker, file, str(held), "--limit", str(pathlib.Path(file).stat().st_size)], check=True)


def free_port():
    with socket.socket() as door:
        door.bind(("127.0.0.1", 0))
        return door.getsockname()[1]


def await_door(port, process):
    """Waits until the server accepts a connection, and takes that one."""
    while process.poll() is None:
        try:
            socket.create_connection(("127.0.0.1", port)).close()
            return
        except ConnectionRefusedError:
            pass
    sys.exit("the server ended")


def main():
    words = argparse.ArgumentParser()
    words.add_argument("program")
    words.add_argument("--batches", type=int, default=2000)
    words.add_argument("--statements", type=int, default=500)
    words.add_argument("--held", type=int, default=1000)
    words = words.parse_args()
    # one at first, to wait for the server, and one at last, so that it doesn't end before its memory is looked at
    connections = 2 + 2 * -(-words.batches // PER_CONNECTION)
    with tempfile.TemporaryDirectory() as folder:
        store, port = f"{folder}/store", free_port()
        make_full(store, words.held)
        before = pathlib.Path(store).read_bytes()
        process = subprocess.Popen(
            [words.program, "serve", store, f"127.0.0.1:{port}", "--workers", "1", "--connections", str(connections)],
            stdin=subprocess.DEVNULL,
        )
        try:
            await_door(port, process)
            print(f"{kilobytes(process)} KB behind the opening of {words.held} statements")
            asked = [
                (f"{words.batches} batches of {words.statements}, refused", batch(words.statements), 507),
                (f"{words.batches} questions", question(), 404),
            ]
            for name, request, status in asked:
                early, late = send(port, request, words.batches, status, process)
                print(f"{name}: {early} KB behind the first tenth, {late - early} KB more at the end")
            await_door(port, process)
            process.wait(60)
        finally:
            process.kill()
        same = pathlib.Path(store).read_bytes() == before
        print("the file is as it was" if same else "the file isn't as it was")
        sys.exit(0 if same and process.returncode == 0 else 1)


main()
