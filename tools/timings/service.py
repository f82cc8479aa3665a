"""Times the program as a server, beside a server of Python's http.server that reads the body and does nothing."""
import contextlib
import http.server
import json
import multiprocessing
import pathlib
import socket
import statistics
import subprocess
import sys
import tempfile
import time

from shared import built_by_cc, posted, serve

CLIENT = pathlib.Path(__file__).resolve().parent / "http_client.c"
COUNTS = (2_000, 20_000)
DAY = "2030-01-02"
START = (
    {"day": DAY, "do": "add_location", "name": "A"},
    {"day": DAY, "do": "add_part", "flags": ["component"], "name": "Screw"},
)
FOUND = {"day": DAY, "do": "found", "location": 1, "part": 2, "quantity": 10}


def answer(port, data):
    """All that is answered, up to the end of the connection."""
    with contextlib.closing(socket.create_connection(("127.0.0.1", port))) as stream:
        stream.sendall(data)
        text = b""
        while piece := stream.recv(65536):
            text += piece
        return text


def taken_by(client, port, count, data):
    """The seconds that each of so many requests took."""
    if client:
        done = subprocess.run([client, str(port), str(count)], input=data, stdout=subprocess.PIPE, check=True)
        return [float(line) for line in done.stdout.split()]
    taken = []
    for _ in range(count):
        start = time.monotonic()
        text = answer(port, data)
        taken.append(time.monotonic() - start)
        if not text.startswith(b"HTTP/1.") or b" 200 " not in text[:16]:
            sys.exit(f"bench: answered {text[:80]!r}")
    return taken


def times(name, client, port, count):
    taken = sorted(taken_by(client, port, count, posted(json.dumps(FOUND))))
    rate = count / sum(taken)
    print(
        f"{name}({count}): {rate:.0f} requests a second, median {statistics.median(taken) * 1000:.3f} ms,"
        f" 99th percentile {taken[count * 99 // 100] * 1000:.3f} ms",
        flush=True,
    )
    return rate


def served(program, client, name, count, *words):
    server, port = serve(program, *words, "--count", str(count + len(START)), stderr=None)
    for request in START:
        answer(port, posted(json.dumps(request)))
    rate = times(name, client, port, count)
    server.wait(timeout=20)
    server.stdout.close()
    return rate


class Nothing(http.server.BaseHTTPRequestHandler):
    """Reads the body, and answers that it did."""

    def do_POST(self):
        self.rfile.read(int(self.headers["Content-Length"]))
        self.send_response(200)
        self.send_header("Content-Length", "3")
        self.send_header("Connection", "close")
        self.end_headers()
        self.wfile.write(b"{}\n")

    def log_message(self, *_):
        pass


def of_python(client, count):
    with http.server.HTTPServer(("127.0.0.1", 0), Nothing) as server:
        process = multiprocessing.Process(target=server.serve_forever, daemon=True)
        process.start()
        rate = times("http.server", client, server.server_address[1], count)
        process.terminate()
        return rate


def on_file(program, client, count):
    with tempfile.TemporaryDirectory(dir="/dev/shm") as folder:
        return served(program, client, "--db", count, "--db", f"{folder}/x.db")


def time_service(program):
    with tempfile.TemporaryDirectory() as folder:
        client = built_by_cc(CLIENT, f"{folder}/client")
        for count in COUNTS:
            beside = of_python(client, count)
            rates = (("memory", served(program, client, "memory", count)), ("--db", on_file(program, client, count)))
            for name, rate in rates:
                print(f"{name}({count}): {rate / beside:.2f} times the rate of http.server", flush=True)
