"""Dialogues of real clients with the example servers: a connection is the standard input and output of the program."""
import email.utils
import errno
import fcntl
import itertools
import random
import re
import select
import shutil
import smtplib
import socket
import subprocess
import tempfile
import termios
import threading
import time
import unittest
from contextlib import contextmanager, suppress
from pathlib import Path
from typing import NamedTuple

import beside
import traced

TOP = Path(__file__).resolve().parents[2]
WAIT = 10  # seconds for a reply


class Dialogue(NamedTuple):
    """What a client sends, and what it has to get before it sends more. At the end it sends no more; `then` comes after.
    All of it takes at most `seconds`, if that is not 0."""

    name: str
    program: str
    steps: list
    then: bytes = b""
    seconds: int = 0


BEGUN = (b"HELO c\r\nMAIL FROM:<a@b>\r\nRCPT TO:<c@d>\r\nDATA\r\n", b"250 OK\r\n" * 3 + b"354 send the lines\r\n")
MAIL = BEGUN[0] + b"Subject: x\r\n\r\n..dot\r\n.\r\nQUIT\r\n"
DATED = b"Received: from c by localhost; NOW\r\n"
ENVELOPE = b"Return-Path: <a@b>\r\nDelivered-To: c@d\r\n" + DATED
MAILED = BEGUN[1] + b"250 OK\r\n221 bye\r\n"
HELLO = (b"", b"220 ready\r\n")
BAD = b"554 bad line\r\n"
FULL = b"452 too many recipients\r\n"
OK = b"250 OK\r\n"
ALL = bytes(range(256))
ARGUMENT, NO_VRFY = b"501 bad argument\r\n", b"252 not verified\r\n"
PARAMETER = b"555 unknown parameter\r\n"
DROPPED = b"554 bad message\r\n221 bye\r\n"
OTHER_BYTES = b"554 the message is not ASCII\r\n"
EXTENSIONS = b"250-localhost\r\n250-PIPELINING\r\n250 SIZE 16777216\r\n"
LARGE = b"552 message too large\r\n"
THOUSAND = b"x" * 998 + b"\r\n"
# Mailboxes and what is none, by the grammar of RFC 5321, 4.1.2, and its limits, 4.5.3.1. The host of a route is read, and then
# ignored.
NAME, DOMAIN = b"n" * 64, b".".join([b"d" * 63] * 4)
PATHS = [
    *[(path, OK) for path in (b"a@b", b"a.b@c.d", b"!#$%&'*+-/=?^_`{|}~@b", b"A1@b-c.d9", b"a@[127.0.0.1]", b"a@[IPv6:::1]")],
    *[(path, OK) for path in (b"@a:b@c", b"@a,@b.c:d@e", b"a@[ipV6:1:2:3:4:5:6:1.2.3.4]", b"a@" + DOMAIN[:63])],
    *[(path, ARGUMENT) for path in (b"@a", b"@a:", b"@:b@c", b"@a,b:c@d", b"@a,:c@d", b"@a@b:c@d", b"@a.:b@c", b"@[1.2.3.4]:b@c", b"a@[1.2.3]", b"a@[1.2.3.256]")],
    *[(path, ARGUMENT) for path in (b"a@[IPv6:zz]", b"a@[IPv6:1.2.3.4]", b"a@[::1]", b"a@[IPv7:::1]", b"a@d" + DOMAIN[:63])],
    *[(path, OK) for path in (b'"a b"@c', b'"a@b"@c', b'"a\\"b"@c', b'""@c', NAME + b"@b", b"a@" + DOMAIN)],
    *[(path, ARGUMENT) for path in (b"a", b"@b", b"a@", b".a@b", b"a.@b", b"a..b@c", b"a b@c", b"a(b@c", b"a@b@c", b"a@[]", b"a@[b", b"a@b]")],
    *[(path, ARGUMENT) for path in (b"a@-b", b"a@b-", b"a@b..c", b"a@.b", b"a@b.", b"a@b_c", b'"a"b"@c', b'"a\\"@c', b'"a@c')],
    *[(path, ARGUMENT) for path in (b"n" + NAME + b"@b", b"a@" + DOMAIN + b"d", b"<a@b", b"a@b>")],
]
SENDERS = [(b"", OK), (b"postmaster", ARGUMENT)]
RECIPIENTS = [(b"", ARGUMENT), (b"postmaster", OK), (b"PostMaster", OK), (b"postmaster ", ARGUMENT)]


def mail(name, *steps, then=b""):
    return Dialogue(name, "example_smtp", [HELLO, *steps], then)


def store(name, *steps, then=b"", seconds=0):
    return Dialogue(name, "example_resp", list(steps), then, seconds)


def colliding_keys(count):
    """Keys that all have one hash in the toolchain's `HashMap`, whose seed is fixed. It reads 16 bytes at a time and multiplies
    their halves, the first one after an xor with its state. Here the second 16 bytes begin with that state, so their
    product is 0, whatever their other half is."""
    number = lambda text: int.from_bytes(text, "little")
    for n in itertools.count():
        first = b"%016d" % n
        product = (number(first[:8]) ^ 0x243F6A8885A308D3 + 48) * (number(first[8:]) ^ 0x9E3779B97F4A7C15)
        state = (product % 2**64 ^ product >> 64).to_bytes(8, "little")
        if state.isascii():
            return [b"%s%s%08d%016d" % (first, state, key, 0) for key in range(count)]


def request(*words):
    """A request of the store, as an array of its words."""
    return b"*%d\r\n" % len(words) + b"".join(b"$%d\r\n%s\r\n" % (len(word), word) for word in words)


KEYS = colliding_keys(100_000)
SETS = [b"".join(request(b"SET", key, b"v") for key in KEYS[n : n + 1000]) for n in range(0, len(KEYS), 1000)]


def smuggled(name, end):
    """An end of a message that is none by RFC 5321, with a second mail after it: one bad message, answered at its end."""
    return mail(f"a message with {name}", BEGUN, (b"hi" + end + BEGUN[0], b""), (b"two\r\n.\r\nQUIT\r\n", DROPPED))


DIALOGUES = [
    mail("the greeting comes first", then=b""),
    mail("a mail in one packet", (MAIL, MAILED)),
    mail("each byte a packet of its own", *[(MAIL[i : i + 1], b"") for i in range(len(MAIL))], then=MAILED),
    mail("a reply before more is sent", (b"HELO c\r\n", b"250 OK\r\n"), (b"NOOP\r", b""), (b"\nQUIT\r\n", b"250 OK\r\n221 bye\r\n")),
    mail("1,010 recipients in one packet", (BEGUN[0][:-6] + b"RCPT TO:<c@d>\r\n" * 1009, b"250 OK\r\n" * 1002 + FULL * 10)),
    mail("what changes nothing", (b"NOOP\r\nNOOP x\r\nNOOPS\r\nVRFY c\r\nRSET\r\n", b"250 OK\r\n" * 2 + ARGUMENT + NO_VRFY + b"250 OK\r\n")),
    mail("the client leaves after a command", (b"NOOP\r\n", b"250 OK\r\n")),
    mail("an input that ends in a command", (b"NOOP\r\nQUIT", b"250 OK\r\n"), then=BAD),
    mail("an input that ends in a message", BEGUN, (b"line\r\n.", b""), then=BAD),
    mail("dots", BEGUN, (b"..\r\n...\r\n. \r\n.x\r\n.\r\n", b"250 OK\r\n")),
    *[mail(f"sender {path}", (b"HELO c\r\nMAIL FROM:<" + path + b">\r\nRSET\r\n", OK + said + OK)) for path, said in PATHS + SENDERS],
    *[mail(f"recipient {path}", (b"HELO c\r\nMAIL FROM:<>\r\nRCPT TO:<" + path + b">\r\n", OK * 2 + said)) for path, said in PATHS + RECIPIENTS],
    mail("a message of the most bytes", BEGUN, *[(THOUSAND * 1000, b"")] * 16, (THOUSAND * 777 + b"x" * 214 + b"\r\n.\r\n", OK)),
    mail("a message of a byte more", BEGUN, *[(THOUSAND * 1000, b"")] * 16, (THOUSAND * 777 + b"x" * 215 + b"\r\n.\r\n" + MAIL, LARGE + MAILED)),
    mail("a client that asks for extensions", (b"EHLO c\r\nEHLO \r\n", EXTENSIONS + ARGUMENT)),
    mail("the last error", (b"HELO c\r\n" + b"x\r\n" * 18 + b"NOOP\r\nDATA\r\n\xff\r\nNOOP\r\n", OK + b"500 unknown command\r\n" * 18 + OK + b"503 bad sequence\r\n421 closing\r\n")),
    mail("parameters after a path", (b"HELO c\r\nMAIL FROM:<a@b> BODY=8BITMIME\r\nMAIL FROM:<a@b>\r\nRCPT TO:<c@d> SIZE=1\r\n", OK + PARAMETER + OK + PARAMETER)),
    mail("a size after other commands", (b"HELO c\r\nMAIL FROM:<a@b>\r\nRCPT TO:<c@d> SIZE=16777217\r\nDATA SIZE=16777217\r\n", OK * 2 + PARAMETER + ARGUMENT)),
    *[mail(f"a message with {word}", (b"HELO c\r\nMAIL FROM:<\"a> SIZE=1\"@b> " + word + b"\r\nRSET\r\n", OK + said + OK))
      for word, said in [(b"SIZE=0", OK), (b"size=16777216", OK), (b"SIZE=16777217", LARGE), (b"SIZE=18446744073709551615", LARGE)]],
    *[mail(f"a message with {word}", (b"HELO c\r\nMAIL FROM:<a@b> " + word + b"\r\nMAIL FROM:<>\r\n", OK + PARAMETER + OK))
      for word in (b"SIZE", b"SIZE=", b"SIZE=+1", b"SIZE=1x", b"SIZE=1 SIZE=1", b"SIZE=18446744073709551616")],
    mail("commands without an argument", (b"HELO\r\nEHLO\r\nVRFY\r\nHELO  \r\nVRFY \t\r\n", ARGUMENT * 5)),
    mail("white space after a command", (b"HELO c \t\r\nMAIL FROM:<a@b> \r\nRCPT TO:<c@d>\t\r\nDATA  \r\n. \r\n.\r\n", BEGUN[1] + OK),
         (b"VRFY c \r\nRSET \r\nNOOP\t\r\nQUIT \r\n", NO_VRFY + OK * 2 + b"221 bye\r\n")),
    *[mail(f"a client that sends {verb}", (verb.encode() + b" / HTTP/1.1\r\nNOOP\r\n", b"421 closing\r\n"))
      for verb in ("GET", "POST", "PUT", "HEAD", "CONNECT")],
    *[mail(f"a client that begins with {line}", (line + b"\r\nNOOP\r\n", b"421 closing\r\n")) for line in (b"Host: a", b"x:", b"A.-~:b c")],
    *[mail(f"a client that begins with {line}", (line + b"\r\nNOOP\r\n", b"500 unknown command\r\n" + OK)) for line in (b":", b"a b:", b"a\t:", b"x\x7f:")],
    mail("a request after the introduction", (b"HELO c\r\nGET / HTTP/1.1\r\nHost: a\r\n", OK + b"500 unknown command\r\n" * 2)),
    mail("a byte above 127", (b"NOOP\xc4\r\nQUIT\r\n", BAD + b"221 bye\r\n")),
    mail("a byte above 127 in a message", BEGUN, (b"caf\xc3\xa9\r\nline\r\n", b""), (b".\r\nQUIT\r\n", OTHER_BYTES + b"221 bye\r\n")),
    mail("a mail after one that was dropped", BEGUN, (b"\xff\r\n.\r\n" + MAIL, OTHER_BYTES + MAILED)),
    mail("a long line is answered before it ends", (b"x" * 5000, b"500 line too long\r\n"), (b"x\r\nNOOP\r\n", b"250 OK\r\n")),
    smuggled("LF . LF", b"\n.\n"),
    smuggled("LF . CR LF", b"\n.\r\n"),
    smuggled("CR LF . LF", b"\r\n.\n"),
    smuggled("CR . CR", b"\r.\r"),
    # What redis-server 7.0.15 replies.
    store("words in quotes", (b"SET k 'it\\'s \"x\"\\n'\r\nGET \"k\"\r\nPING \"a\\n\\r\\t\\b\\a\\\\\\\"\\x41\\xZZ\\q\"\r\nPING a\"b c\"\r\nPING \"\"\r\n",
          b"+OK\r\n$10\r\nit's \"x\"\\n\r\n$13\r\na\n\r\t\x08\x07\\\"AxZZq\r\n$4\r\nab c\r\n$0\r\n\r\n")),
    store("words between white space", (b"\x0bPING\r\n  \r\n\tPING \x0bx \r\nPING a\x0bb\r\nPING 'a'\x0b\r\n", b"+PONG\r\n$1\r\nx\r\n$3\r\na\x0bb\r\n$1\r\na\r\n")),
    *[store(f"quotes that are not balanced in {line}", (line + b"\r\nPING\r\n", b"-ERR Protocol error: unbalanced quotes in request\r\n"))
      for line in [b'PING "a"b', b"PING 'a'b", b'PING "a', b"PING 'a", b'PING "a\\', b'PING "a\\"', b"PING 'a\\'", b"'a' b 'c", b'PING a"b']],
    store("a quoted byte above 127", (b'PING "\\x7f"\r\nPING "\\xff"\r\nPING\r\n', b"$1\r\n\x7f\r\n$1\r\n\xff\r\n+PONG\r\n")),
    store("each byte in a key and a value",
        (b"*3\r\n$3\r\nSET\r\n$256\r\n%s\r\n$256\r\n%s\r\n" % (ALL, ALL[::-1]), b"+OK\r\n"),
        (b"*2\r\n$3\r\nGET\r\n$256\r\n%s\r\n" % ALL, b"$256\r\n%s\r\n" % ALL[::-1]),
        (b"*2\r\n$3\r\nDEL\r\n$256\r\n%s\r\n" % ALL, b":1\r\n")),
    store("arrays without words", (b"*-1\r\n*0\r\nPING x\r\n", b"$1\r\nx\r\n")),
    store("what comes after QUIT", (b"PING hi\r\n\r\n*0\r\nQUIT\r\nPING\r\n", b"$2\r\nhi\r\n+OK\r\n")),
    store("several keys", (b"SET a 1\r\nSET b 2\r\nEXISTS a b c a\r\nDEL a a b c\r\nEXISTS a\r\n", b"+OK\r\n" * 2 + b":3\r\n:2\r\n:0\r\n")),
    store("a request in two packets", (b"*1\r\n$4\r\nPI", b""), (b"NG\r\n", b"+PONG\r\n")),
    store("a reply before more is sent", (b"SET a 1\r\n", b"+OK\r\n"), (b"GET a\r\n", b"$1\r\n1\r\n")),
    store("2,000 requests in one packet", (b"PING\r\n" * 2000, b"+PONG\r\n" * 2000)),
    store("100,000 keys of one hash", *[(sets, b"+OK\r\n" * 1000) for sets in SETS], (request(b"GET", KEYS[-1]), b"$1\r\nv\r\n"), seconds=10),
    store("a value with breaks", (b"*3\r\n$3\r\nSET\r\n$1\r\nk\r\n$5\r\na\r\n\nb\r\nGET k\r\n", b"+OK\r\n$5\r\na\r\n\nb\r\n")),
    store("a rejected length, and requests in its payload", (b"*2\r\n$3\r\nGET\r\n$9999\r\nSET a 1\r\nGET a\r\n", b"-ERR Protocol error: invalid bulk length\r\n")),
    store("a byte above 127", (b"PING\r\n\xff\r\nPING\r\n", b"+PONG\r\n-ERR Protocol error: bad input\r\n")),
    store("an input that ends in a value", (b"*1\r\n$4\r\nPI", b""), then=b"-ERR Protocol error: bad input\r\n"),
]


def start(program, connection, *words):
    path = TOP / "crates" / program / "out" / program
    return subprocess.Popen([path, *words], stdin=connection, stdout=connection, stderr=subprocess.DEVNULL)


def received(connection, size):
    """The next bytes of a connection, fewer at its end. It ends with a reset where the program left before it had read all."""
    got = b""
    with suppress(ConnectionResetError):
        while len(got) < size and (more := connection.recv(size - len(got))):
            got += more
    return got


class Talks(unittest.TestCase):
    """A dialogue with a program."""

    def __init__(self, dialogue):
        super().__init__()
        self.dialogue = dialogue

    def __str__(self):
        return f"{self.dialogue.program}: {self.dialogue.name}"

    def runTest(self):
        began = time.monotonic()
        client, server = socket.socketpair()
        with start(self.dialogue.program, server), client:
            server.close()
            client.settimeout(WAIT)
            client.setsockopt(socket.SOL_SOCKET, socket.SO_SNDBUF, 1 << 20)
            for sent, wanted in self.dialogue.steps:
                try:
                    client.sendall(sent)
                except (BrokenPipeError, ConnectionResetError):
                    pass
                self.assertEqual(received(client, len(wanted)), wanted)
            try:
                client.shutdown(socket.SHUT_WR)
            except OSError:
                pass
            try:
                rest = received(client, 1 << 16)
            except ConnectionResetError:
                rest = b""
            self.assertEqual(rest, self.dialogue.then)
        if self.dialogue.seconds:
            self.assertLess(time.monotonic() - began, self.dialogue.seconds, "seconds")


class TalksInPieces(Talks):
    """The same dialogue in one go, in pieces of 1 to 12 bytes, each of which the program reads by itself. The replies are taken at
    most so many bytes after each piece. What they say does not depend on either."""

    LONGEST = 20_000  # bytes that a dialogue sends
    TAKEN = (1, 3, 1 << 16)

    def __str__(self):
        return f"{super().__str__()}, in pieces"

    def runTest(self):
        sent, wanted = map(b"".join, zip(*self.dialogue.steps))
        for most in self.TAKEN:
            with self.subTest(most=most):
                self.assertEqual(self.replies(sent, most), wanted + self.dialogue.then)

    def replies(self, sent, most):
        lengths, got, at = random.Random(most), b"", 0
        client, server = socket.socketpair()
        with start(self.dialogue.program, server), client:
            server.close()
            client.settimeout(WAIT)
            try:
                while at < len(sent):
                    piece = sent[at : at + lengths.randint(1, 12)]
                    client.sendall(piece)
                    got += self.taken_until_read(client, most)
                    at += len(piece)
                    got += taken(client, most)
                client.shutdown(socket.SHUT_WR)
            except (BrokenPipeError, ConnectionResetError):
                pass
            return got + received(client, 1 << 20)

    def taken_until_read(self, client, most):
        """Waits until all that was sent is read. The program reads nothing while the queue of its replies is full, so after a while
        some of them are taken."""
        got, began = b"", time.monotonic()
        while int.from_bytes(fcntl.ioctl(client, termios.TIOCOUTQ, bytes(4)), "little"):
            waited = time.monotonic() - began
            self.assertLess(waited, WAIT, "seconds")
            got += taken(client, most) if waited > 0.05 else b""
        return got


def dated(mail):
    """The text of a mail, with NOW in place of its date, if that is one by the form of mails and less than a minute old."""
    date = re.search(rb"\r\nReceived: from [^\r\n]+ by localhost; ([^\r\n]*)\r\n", mail)
    age = time.time() - email.utils.parsedate_to_datetime(date[1].decode()).timestamp() if date else 60
    return mail[:date.start(1)] + b"NOW" + mail[date.end(1):] if -2 < age < 60 else mail


def taken(connection, most):
    """The bytes that have come, of these as many at most."""
    return connection.recv(most) if select.select([connection], [], [], 0)[0] else b""


@contextmanager
def listening(program):
    """A port at which each client gets a process of the program, as inetd does it."""
    with socket.create_server(("127.0.0.1", 0)) as listener:
        def serve():
            while True:
                try:
                    connection, _ = listener.accept()
                except OSError:
                    return
                with connection:
                    start(program, connection)

        server = threading.Thread(target=serve)
        server.start()
        try:
            yield listener.getsockname()[1]
        finally:
            listener.shutdown(socket.SHUT_RDWR)
            server.join()


class SendsMail(unittest.TestCase):
    """Python's smtplib sends a mail."""

    def __str__(self):
        return "example_smtp: smtplib sends a mail"

    def runTest(self):
        with listening("example_smtp") as port, smtplib.SMTP(timeout=WAIT) as client:
            self.assertEqual(client.connect("127.0.0.1", port), (220, b"ready"))
            self.assertEqual(client.ehlo("client"), (250, b"localhost\nPIPELINING\nSIZE 16777216"))
            self.assertEqual(client.sendmail("a@b", ["c@d", "e@f"], "Subject: x\n\n.dot\nbye\n"), {})
            self.assertEqual(client.quit(), (221, b"bye"))


class StoresMail(unittest.TestCase):
    """Mails that a folder stores, or can't store: a row has what is removed of the folder after the greeting, what the session sends
    then and gets, and the texts of the files in `new`, in the order of their names. No draft is left."""

    BAD_MAIL = BEGUN[0] + b"caf\xe9\r\n.\r\n"
    TWO = BEGUN[0] + b"one\r\n..\r\n\r\n.\r\n" + BAD_MAIL + BEGUN[0] + b"two\n\r\n.\r\n" + BEGUN[0] + b"three\r\n.\r\n"
    MANY = b"HELO c\r\nMAIL FROM:<>\r\nRCPT TO:<\"a b\"@c>\r\nRCPT TO:<Postmaster>\r\nDATA\r\n.\r\n"
    # A reset keeps the name of the client, as does a message; another introduction has another name.
    NAMED = b"EHLO [127.0.0.1]\r\nMAIL FROM:<x@y>\r\nRSET\r\n" + (BEGUN[0] + b".\r\n").removeprefix(b"HELO c\r\n") * 2 + b"HELO a b\r\n" \
        + (BEGUN[0] + b".\r\n").removeprefix(b"HELO c\r\n")
    FROM_EACH = [ENVELOPE.replace(b"from c", name) for name in [b"from [127.0.0.1]", b"from [127.0.0.1]", b"from a b"]]
    SAID = BEGUN[1] + OK + BEGUN[1] + OTHER_BYTES + BEGUN[1] + b"554 bad message\r\n" + BEGUN[1]
    ROWS = [
        ([], TWO, SAID + OK, [ENVELOPE + b"one\r\n.\r\n\r\n", ENVELOPE + b"three\r\n"]),
        ([], MANY, OK * 4 + b"354 send the lines\r\n" + OK, [b"Return-Path: <>\r\nDelivered-To: \"a b\"@c\r\nDelivered-To: Postmaster\r\n" + DATED]),
        ([], NAMED, EXTENSIONS + OK * 2 + (BEGUN[1] + OK).removeprefix(OK) * 2 + OK + (BEGUN[1] + OK).removeprefix(OK), FROM_EACH),
        (["tmp"], BEGUN[0] + b"one\r\n.\r\nNOOP\r\n", BEGUN[1] + b"451 not stored\r\n" + OK, []),
        (["new"], BEGUN[0] + b"one\r\n.\r\nNOOP\r\n", BEGUN[1] + b"451 not stored\r\n" + OK, []),
    ]

    def __str__(self):
        return "example_smtp: mails in a folder"

    def runTest(self):
        for removed, sent, wanted, texts in self.ROWS:
            with tempfile.TemporaryDirectory() as top:
                folder, (client, server) = Path(top) / "mail", socket.socketpair()
                with start("example_smtp", server, folder), client:
                    server.close()
                    client.settimeout(WAIT)
                    self.assertEqual(received(client, len(HELLO[1])), HELLO[1])
                    for name in removed:
                        (folder / name).rmdir()
                    client.sendall(sent)
                    client.shutdown(socket.SHUT_WR)
                    self.assertEqual(received(client, 1 << 16), wanted, removed)
                self.assertEqual([dated(it.read_bytes()) for it in sorted((folder / "new").glob("*"))], texts, removed)
                self.assertEqual([it.name for it in sorted(folder.iterdir())], sorted({"cur", "new", "tmp"} - {*removed}))
                self.assertEqual(list((folder / "tmp").glob("*")), [])


class TakesArguments(unittest.TestCase):
    """Wrong arguments of a server, and a call for help: what it writes to standard output and standard error, and the status.
    A folder that cannot be used is a line on standard error, and no greeting. A write that fails is a status."""

    USAGE = b"usage: %s.*\n.*\nStatus .+\n"
    ROWS = [
        ("example_smtp", ["/dev/null"], 73, b"", b"/dev/null: .+\n"),
        ("example_smtp", ["--help"], 0, USAGE % b"example_smtp", b""),
        ("example_smtp", ["-v"], 64, b"", USAGE % b"example_smtp"),
        ("example_smtp", ["a", "b"], 64, b"", USAGE % b"example_smtp"),
        ("example_resp", ["--help"], 0, USAGE % b"example_resp", b""),
        ("example_resp", ["a"], 64, b"", USAGE % b"example_resp"),
    ]

    def __str__(self):
        return "example_smtp and example_resp: their arguments"

    def runTest(self):
        for program, words, status, out, error in self.ROWS:
            got = subprocess.run([TOP / "crates" / program / "out" / program, *words], input=b"", capture_output=True, timeout=WAIT)
            self.assertEqual(got.returncode, status, words)
            self.assertRegex(got.stdout, b"\\A" + out + b"\\Z")
            self.assertRegex(got.stderr, b"\\A" + error + b"\\Z")
        for program in ("example_smtp", "example_resp"):
            with open("/dev/full", "wb") as full:
                command = [TOP / "crates" / program / "out" / program]
                got = subprocess.run(command, input=b"PING\r\n", stdout=full, stderr=subprocess.PIPE, timeout=WAIT)
            self.assertEqual(got.returncode, 74, got.stderr)


class CountsMail(unittest.TestCase):
    """Standard error has the number of messages that got their 250, which `main` has no clause for."""

    def __str__(self):
        return "example_smtp: the number of messages"

    def runTest(self):
        sent = BEGUN[0] + b"one\r\n.\r\n" + StoresMail.BAD_MAIL + MAIL
        program = TOP / "crates/example_smtp/out/example_smtp"
        self.assertEqual(subprocess.run([program], input=sent, capture_output=True).stderr, b"Closed, 2 messages\n")


class StoresInOrder(unittest.TestCase):
    """The system calls of a delivery, in their order: the reply is written when all of them have returned, and before the file
    of another mail in the same packet is created."""

    TEXT = b"one\r\ntwo\r\n"
    MAILS = 2

    def __str__(self):
        return "example_smtp: the system calls of a delivery"

    def runTest(self):
        with tempfile.TemporaryDirectory() as folder, tempfile.TemporaryFile() as sent, tempfile.TemporaryFile() as said:
            sent.write((BEGUN[0] + self.TEXT + b".\r\n") * self.MAILS)
            sent.seek(0)
            program = TOP / "crates/example_smtp/out/example_smtp"
            try:
                calls = list(traced.calls_of([str(program), folder], sent, said))
            except OSError as why:
                self.skipTest(f"processes cannot be traced here: {why}")
        steps = self.steps(calls, folder)
        stored = ["create tmp", ENVELOPE + self.TEXT, "sync tmp", "link tmp new", "sync new", "unlink tmp", "reply"]
        told = [dated(step) if isinstance(step, bytes) else step for step in steps[steps.index("create tmp"):]]
        self.assertEqual(told, stored * self.MAILS)

    @staticmethod
    def steps(calls, folder):
        """The calls at the folder, and those that reply, with adjacent ones as one."""
        steps, opened = [], {}
        place = lambda path: path.removeprefix(f"{folder}/").partition("/")[0]
        for call in calls:
            if call.name == "open" and call.paths[0].startswith(folder):
                opened[call.result] = place(call.paths[0])
                steps += ["create tmp"] if opened[call.result] == "tmp" else []
            elif call.name == "write" and call.file == 1:
                steps += ["reply"] if steps[-1:] != ["reply"] else []
            elif call.name == "write" and call.file in opened and isinstance(steps[-1], bytes):
                steps[-1] += call.data
            elif call.name == "write" and call.file in opened:
                steps.append(call.data)
            elif call.name in ("fsync", "fdatasync"):
                steps.append(f"sync {opened.get(call.file)}")
            elif call.name in ("rename", "link", "unlink"):
                steps.append(" ".join([call.name, *map(place, call.paths)]))
        return steps


class SurvivesFailures(unittest.TestCase):
    """A session is killed at each of its system calls, and each fails once. A mail that got its 250 is stored, once and whole; one
    without it is not, unless the session ended before its reply was written. Where a call fails, no draft is left but by a
    removal that failed."""

    MAILS = [b"one\r\n", b"two\r\nlines\r\n", b"three\r\n"]
    ERRORS = [errno.EIO, errno.ENOSPC]

    def __str__(self):
        return "example_smtp: a system call that fails, and an end at each"

    def run_with(self, at=None, error=0):
        """The calls, the replies to the mails, the texts of the mails that are stored, and the drafts."""
        program = TOP / "crates/example_smtp/out/example_smtp"
        with tempfile.TemporaryDirectory() as folder, tempfile.TemporaryFile() as sent, tempfile.TemporaryFile() as said:
            sent.write(b"".join(BEGUN[0] + text + b".\r\n" for text in self.MAILS))
            sent.seek(0)
            try:
                calls = list(traced.calls_of([str(program), folder], sent, said, at, error))
            except OSError as why:
                self.skipTest(f"processes cannot be traced here: {why}")
            said.seek(0)
            parts = said.read().removeprefix(HELLO[1]).split(BEGUN[1])[1:]
            read = lambda name: sorted(dated(it.read_bytes()) for it in (Path(folder) / name).glob("*"))
            return calls, parts, read("new"), read("tmp")

    def runTest(self):
        whole, parts, new, _ = self.run_with()
        self.assertEqual((parts, new), ([OK] * 3, sorted(ENVELOPE + text for text in self.MAILS)))
        first = next(at for at, call in enumerate(whole) if call.name == "open" and Path(call.paths[0]).parent.name == "tmp")
        for at, error in itertools.product(range(first, len(whole)), [0, *self.ERRORS]):
            calls, parts, new, tmp = self.run_with(at, error)
            stored = [ENVELOPE + text for text, part in zip(self.MAILS, parts) if part == OK]
            said = f"{whole[at].name} {at} with error {error}: {parts}, {new}, {tmp}"
            is_cut_off = not error or whole[at].file == 1 and whole[at].name == "write"
            # Only of the mail whose reply could not be written.
            unsaid = [[]] + [[ENVELOPE + text] for text in self.MAILS[len(stored):][:1] if is_cut_off]
            self.assertIn(new, [sorted(stored + more) for more in unsaid], said)
            self.assertTrue(is_cut_off or parts == [OK if ENVELOPE + text in new else b"451 not stored\r\n" for text in self.MAILS], said)
            self.assertTrue(not error or not tmp or whole[at].name == "unlink", said)


class Command(NamedTuple):
    """A client that may be installed: `PORT` and `FILE` in its words stand for the port and a file with `text`."""

    name: str
    program: str
    words: list
    text: str
    status: int
    shows: list


LETTER = "Subject: x\r\n\r\n.one\r\ntwo\r\n"
SWAKS = ["swaks", "--server", "127.0.0.1:PORT", "--from", "a@b", "--to", "c@d,e@f", "--data", "@FILE"]
CURL = ["curl", "-sv", "smtp://127.0.0.1:PORT/client", "--mail-from", "a@b", "--mail-rcpt", "c@d", "-T", "FILE"]
REDIS = "SET a 1\nGET a\nPING\nSET k \"x y\"\nGET k\nDEL k\nGET k\n"
SETS = "*3\r\n$3\r\nSET\r\n$1\r\na\r\n$1\r\n1\r\n" * 100
BENCHMARK = "redis-benchmark -p PORT -n 20000 -c 1 -P 16 -t set,get --csv".split()
COMMANDS = [
    Command("swaks sends a mail", "example_smtp", SWAKS, LETTER, 0, ["354 send", "250 OK", "221 bye"]),
    Command("swaks sends a mail of 8 bits", "example_smtp", SWAKS, "Subject: x\n\ncaf\u00e9\n", 26, ["554 the message is not ASCII", "221 bye"]),
    Command("curl sends a mail", "example_smtp", CURL, LETTER, 0, ["> EHLO client", "< 354 send", "< 250 OK"]),
    Command("redis-cli", "example_resp", ["redis-cli", "-p", "PORT"], REDIS, 0, ["OK\n1\nPONG\nOK\nx y\n1\n\n"]),
    Command("redis-cli --pipe", "example_resp", ["redis-cli", "-p", "PORT", "--pipe"], SETS, 0, ["errors: 0, replies: 100\n"]),
    Command("redis-benchmark", "example_resp", BENCHMARK, "", 0, ['"SET"', '"GET"']),
]


class Runs(unittest.TestCase):
    """A command talks with a program; where it is not installed, this is skipped."""

    def __init__(self, command):
        super().__init__()
        self.command = command

    def __str__(self):
        return f"{self.command.program}: {self.command.name}"

    def runTest(self):
        name, program, words, text, status, shows = self.command
        if not shutil.which(words[0]):
            self.skipTest(f"{words[0]} is not installed")
        with listening(program) as port, tempfile.NamedTemporaryFile("w", newline="") as file:
            file.write(text)
            file.flush()
            words = [it.replace("PORT", str(port)).replace("FILE", file.name) for it in words]
            got = subprocess.run(words, input=text, text=True, capture_output=True, timeout=6 * WAIT)
        said = got.stdout + got.stderr
        self.assertEqual(got.returncode, status, said)
        for line in shows:
            self.assertIn(line, said)


def tests():
    short = [it for it in DIALOGUES if sum(len(sent) for sent, _ in it.steps) <= TalksInPieces.LONGEST]
    with_folders = [SendsMail(), CountsMail(), StoresMail(), TakesArguments(), StoresInOrder(),
                    SurvivesFailures()]
    others = [beside.BesidePostfix(), beside.BesideRedis()]
    return [*map(Talks, DIALOGUES), *map(TalksInPieces, short), *with_folders, *map(Runs, COMMANDS), *others]


def faults(names=()):
    """Runs the dialogues of these names, or all; returns the name of each, with what was wrong or None, and of those that were
    skipped, why."""
    rows, result = [it for it in tests() if not names or str(it) in names], unittest.TestResult()
    ran = [str(it) for it in rows]
    unittest.TestSuite(rows).run(result)
    wrong = {str(test): text for test, text in result.failures + result.errors}
    skipped = {str(test): why for test, why in result.skipped}
    return {row: wrong.get(row) for row in ran if row not in skipped}, skipped
