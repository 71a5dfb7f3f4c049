#!/usr/bin/env python3
"""Measures the example servers, and writes a line for each row: what is measured, ours, and redis-server's, if it has one.
usage: bench/servers.py ROUNDS

Requests a second of one client over one connection: the best of ROUNDS, ours and redis-server in turn, each with a
store that is empty at first. The client sets random keys, and asks the same connection for these keys in another order;
each reply is compared. Both ends of a connection send at once (TCP_NODELAY). For a mail of 16 MiB: milliseconds of CPU
time, the minimum of ROUNDS, and MiB of memory at the peak. The programs are those of crates/*/out. If redis-server is
not installed, the store is left out, and standard error says so.
"""
import os
import random
import shutil
import socket
import subprocess
import sys
import threading
import time
from contextlib import contextmanager
from itertools import product
from pathlib import Path

sys.path.insert(0, str(Path(__file__).resolve().parents[1] / "tools" / "check"))
from dialogues import BEGUN, received, start  # noqa: E402

KEYS, REQUESTS, SIZES = 10_000, 32_000, (3, 100, 1000)  # the sizes are those of a value, in bytes
PASSES = {1: 1, 16: 5, 64: 10}  # over the requests, by how many are sent together
LINES = 233_016  # of 70 characters with CR LF: 16 MiB
LINE = b"x" * 70 + b"\r\n"


def sends_at_once(connection):
    connection.setsockopt(socket.IPPROTO_TCP, socket.TCP_NODELAY, 1)
    return connection


@contextmanager
def ours():
    """A connection with a new process of example_resp."""
    with socket.create_server(("127.0.0.1", 0)) as listener:
        client = sends_at_once(socket.create_connection(listener.getsockname()))
        with sends_at_once(listener.accept()[0]) as server:
            process = start("example_resp", server)
    with process, client:
        yield client


def connected(port):
    """A connection with a server that begins to listen at this port."""
    while True:
        try:
            return sends_at_once(socket.create_connection(("127.0.0.1", port)))
        except ConnectionRefusedError:
            time.sleep(0.01)


@contextmanager
def redis():
    """A connection with a new redis-server that keeps nothing. It sets TCP_NODELAY itself."""
    with socket.create_server(("127.0.0.1", 0)) as free:
        port = free.getsockname()[1]
    words = ["redis-server", "--port", str(port), "--save", "", "--appendonly", "no", "--loglevel", "warning"]
    with subprocess.Popen(words, stdout=subprocess.DEVNULL) as server:
        try:
            with connected(port) as client:
                yield client
        finally:
            server.terminate()


def bulk(text):
    return b"$%d\r\n%s\r\n" % (len(text), text)


def request(*words):
    return b"*%d\r\n" % len(words) + b"".join(map(bulk, words))


def exchanges(size):
    """Requests with their replies: random keys are set, and asked for in another order."""
    numbers = random.Random(size)
    keys = numbers.choices(range(KEYS), k=REQUESTS)
    names = {key: b"key:%012d" % key for key in keys}
    values = {key: (b"%04d" % key * size)[:size] for key in keys}
    sets = [(request(b"SET", names[key], values[key]), b"+OK\r\n") for key in keys]
    gets = [(request(b"GET", names[key]), bulk(values[key])) for key in numbers.sample(keys, REQUESTS)]
    return {"SET": sets, "GET": gets}


def joined(pairs, together):
    """Requests and replies, of which `together` are one batch."""
    return [tuple(map(b"".join, zip(*pairs[at : at + together]))) for at in range(0, len(pairs), together)]


def rate(client, batches, passes):
    """Requests a second."""
    begun = time.perf_counter()
    for sent, expected in batches * passes:
        client.sendall(sent)
        if received(client, len(expected)) != expected:
            sys.exit(f"bench/servers.py: an unexpected reply to {sent[:80]}")
    return REQUESTS * passes / (time.perf_counter() - begun)


def measure_store(rounds):
    for size, (together, passes) in product(SIZES, PASSES.items()):
        batches = {name: joined(pairs, together) for name, pairs in exchanges(size).items()}
        best = {name: [0, 0] for name in batches}
        for _, (side, server) in product(range(rounds), enumerate((ours, redis))):
            with server() as client:
                for name, of_name in batches.items():
                    best[name][side] = max(best[name][side], rate(client, of_name, passes))
        for name, rates in best.items():
            row = f"store, {name} of {size} bytes, {together} together: requests a second"
            print(row, *map(round, rates), sep="\t")


def send_mail():
    """Sends a mail of 16 MiB, and returns milliseconds of CPU time and MiB of memory at the peak."""
    client, server = socket.socketpair()
    with client:
        process = start("example_smtp", server)
        server.close()
        reader = threading.Thread(target=lambda: [None for _ in iter(lambda: client.recv(1 << 16), b"")])
        reader.start()
        client.sendall(BEGUN[0])
        for _ in range(LINES // 1000):
            client.sendall(LINE * 1000)
        client.sendall(LINE * (LINES % 1000) + b".\r\nQUIT\r\n")
        client.shutdown(socket.SHUT_WR)
        _, _, usage = os.wait4(process.pid, 0)
        process.returncode = 0
        reader.join()
    return 1000 * (usage.ru_utime + usage.ru_stime), usage.ru_maxrss / 1024


def main():
    if len(sys.argv) != 2 or not sys.argv[1].isdigit():
        sys.exit(__doc__)
    rounds = int(sys.argv[1])
    # Mails come first, because the peak of a process includes the memory of the one that starts it.
    times, peaks = zip(*(send_mail() for _ in range(rounds)))
    if shutil.which("redis-server"):
        measure_store(rounds)
    else:
        print("bench/servers.py: not here, and left out: redis-server", file=sys.stderr)
    print("mail of 16 MiB: ms of CPU time", round(min(times)), "", sep="\t")
    print("mail of 16 MiB: MiB of memory", round(max(peaks)), "", sep="\t")


if __name__ == "__main__":
    main()
