"""The example servers beside Postfix's smtpd and redis-server, where these are installed: each row is sent to both.

beside_rows.py has the rows. Of SMTP the codes of the replies are compared, of the store the replies."""
import os
import re
import shutil
import socket
import subprocess
import tempfile
import time
import unittest
from pathlib import Path

import beside_rows

TOP = Path(__file__).resolve().parents[2]
WAIT = 10  # seconds for a reply, or until a server listens
MAIN = """compatibility_level = 3.6
queue_directory = {folder}/queue
data_directory = {folder}/data
daemon_directory = /usr/lib/postfix/sbin
mail_owner = postfix
setgid_group = postdrop
myhostname = host.example
mydestination = d
inet_interfaces = 127.0.0.1
inet_protocols = ipv4
mynetworks = 127.0.0.0/8
local_recipient_maps =
alias_maps =
default_transport = discard
local_transport = discard
smtpd_relay_restrictions = permit_mynetworks, reject
smtpd_peername_lookup = no
smtpd_error_sleep_time = 0
smtpd_timeout = 5
maillog_file = /var/log/{name}.log
"""


def replies(client, sent):
    """All that a server says to what is sent, up to the end of the connection."""
    client.settimeout(WAIT)
    got = b""
    try:
        client.sendall(sent)
        client.shutdown(socket.SHUT_WR)
        while more := client.recv(1 << 16):
            got += more
    except OSError:
        pass
    return got


def codes(said):
    """The codes of replies, one after another; `n x code` for the same one three times or more."""
    found = [line[:3].decode() for line in said.split(b"\r\n") if line[:3].isdigit() and line[3:4] != b"-"]
    return re.sub(r"\b(\d+)(?: \1\b){2,}", lambda it: f"{len(it[0].split())} x {it[1]}", " ".join(found))


def start_of(said):
    """Replies; of long ones their start."""
    return said if len(said) < 100 else said[:60] + b" .."


class Beside(unittest.TestCase):
    """A server beside the example for the same protocol."""

    def runTest(self):
        if not shutil.which(self.needs) or not self.is_able():
            self.skipTest(f"{self.needs} is not installed, or cannot be started here")
        with tempfile.TemporaryDirectory(dir="/tmp") as folder:
            address = self.begin(Path(folder))
            try:
                for row in self.rows:
                    with self.subTest(row.name):
                        got = self.shown(self.ask_ours(row.sent)), self.shown(self.ask(address, row.sent))
                        self.assertEqual(got, (row.ours, row.ours if row.theirs is None else row.theirs))
            finally:
                self.end(Path(folder))

    def is_able(self):
        return True

    def ask_ours(self, sent):
        client, server = socket.socketpair()
        with client:
            with server:
                program = TOP / "crates" / self.program / "out" / self.program
                subprocess.Popen(program, stdin=server, stdout=server, stderr=subprocess.DEVNULL)
            return replies(client, sent)

    @staticmethod
    def connected(address):
        """A connection, once the server listens."""
        ends = time.monotonic() + WAIT
        while True:
            try:
                return socket.create_connection(address)
            except OSError:
                if time.monotonic() > ends:
                    raise
                time.sleep(0.05)


class BesidePostfix(Beside):
    needs, program, rows, shown = "postfix", "example_smtp", beside_rows.SMTP, staticmethod(codes)

    def __str__(self):
        return "example_smtp beside Postfix's smtpd"

    def is_able(self):
        return os.geteuid() == 0 and Path("/etc/postfix/master.cf").is_file()

    def begin(self, folder):
        port = free_port()
        shutil.copytree("/etc/postfix", folder / "etc", symlinks=True)
        for name in ("queue", "data"):
            (folder / name).mkdir()
        folder.chmod(0o755)
        shutil.chown(folder / "data", "postfix")
        (folder / "etc/main.cf").write_text(MAIN.format(folder=folder, name=folder.name))
        master = (folder / "etc/master.cf").read_text()
        master = re.sub(r"(?m)^smtp +inet.*", f"127.0.0.1:{port} inet n - n - - smtpd", master)
        (folder / "etc/master.cf").write_text(re.sub(r"(?m)^(\w+ +unix +\S+ +\S+ +)y ", r"\1n ", master))
        subprocess.run(["postfix", "-c", folder / "etc", "start"], capture_output=True, check=True)
        return "127.0.0.1", port

    def end(self, folder):
        subprocess.run(["postfix", "-c", folder / "etc", "stop"], capture_output=True)
        Path(f"/var/log/{folder.name}.log").unlink(missing_ok=True)

    def ask(self, address, sent):
        with self.connected(address) as client:
            return replies(client, sent)


class BesideRedis(Beside):
    needs, program, rows, shown = "redis-server", "example_resp", beside_rows.RESP, staticmethod(start_of)

    def __str__(self):
        return "example_resp beside redis-server"

    def begin(self, folder):
        port = free_port()
        words = ["redis-server", "--port", str(port), "--save", "", "--appendonly", "no", "--dir", str(folder)]
        self.server = subprocess.Popen(words, stdout=subprocess.DEVNULL)
        return "127.0.0.1", port

    def end(self, folder):
        self.server.terminate()
        self.server.wait(WAIT)

    def ask(self, address, sent):
        with self.connected(address) as client:
            replies(client, b"FLUSHALL\r\n")
        with self.connected(address) as client:
            return replies(client, sent)


def free_port():
    with socket.create_server(("127.0.0.1", 0)) as server:
        return server.getsockname()[1]
