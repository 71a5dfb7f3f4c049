"""Calls of the built programs, as data: what each writes, its status, its line on standard error, which is one write,
and what it leaves of its input."""
import fcntl
import os
import random
import resource
import signal
import socket
import subprocess
import tempfile
import unittest
from collections import namedtuple
from pathlib import Path
from typing import NamedTuple

import memory_limits
from memory_limits import run_apart

TOP = Path(__file__).resolve().parents[2]
USAGE = b"usage: ascii_show copy|lines|tac|caret|ends [-s] SCRIPT|edit WORD..|json\n"
ANY = b"(any)"  # of a line on standard error
HOSTILE = "a\x1b[31m\nb"  # a name with an escape sequence and a line break
QUOTED = r"'a'$'\033''[31m'$'\n''b'"
OWN = b"abc\n" * 100_000  # the file that a call writes to
LARGEST = 4_000_000  # the size of a file at which the system stops a call
# The files that calls name.
FILES = {"text": b"x\r\ny", "other": b"ab\310c", "high": b"\310", "empty": b"", "long": b"a" * 1_000_000,
         HOSTILE: b"ab\310c", "it's": b"\200"}


class Failing(bytes):
    """An input that fails after these bytes."""


class Lost(bytes):
    """A line that is lost, because standard error is full."""


class Call(NamedTuple):
    """A call. `given` is its input of at most 64 KiB, or None if it is closed; `to` says where its output goes if it is
    not read here."""

    name: str
    arguments: list
    given: bytes
    status: int
    output: bytes = b""
    line: bytes = b""
    # "full", a device that is full, "closed", a pipe that nobody reads, or a file: "own", "both" if it is the input too,
    # or "short" if it is full after two bytes.
    to: str = ""

    @property
    def left(self):
        """What the call leaves of its input: all of it if an argument is rejected, unless that is for its position."""
        return self.given if self.status == 2 and not self.line.startswith(b"bad position") else b""


Answer = namedtuple("Answer", "status output writes left")


def said(text):
    """The line of ascii_filter on standard error."""
    return f"ascii_filter: {text}\n".encode()


def long_word(length):
    """A call whose argument is around a length at which the program allocates a longer buffer for it."""
    word = "x" * (length - 1)
    output = f"{word}abc{word}".encode()
    words = [f"i0:{word[2:]}", "i0:xx", f"p{word}"]
    return Call(f"edit of a word of {length} characters", ["edit", *words], b"abc", 0, output)


def bad_words(*words):
    """Calls of `edit` with one word, which is rejected."""
    return [Call(f"the bad word {word!a}", ["edit", word.encode()], b"abc", 2, b"", b"bad word 1\n") for word in words]


SHOW = [
    Call("copy", ["copy"], b"abc", 0, b"abc"),
    Call("copy of nothing", ["copy"], b"", 0),
    Call("copy of DEL", ["copy"], b"\177", 0, b"\177"),
    Call("lines, from the start", ["lines"], b"x\r\ny", 0, b"x\ny\n"),
    Call("lines of nothing", ["lines"], b"", 0),
    Call("lines with an empty line and a last CR", ["lines"], b"a\r\n\r\nb\r", 0, b"a\n\nb\r\n"),
    Call("tac, from the end", ["tac"], b"x\r\ny", 0, b"y\nx\n"),
    Call("tac with an empty line and a last CR", ["tac"], b"a\r\n\r\nb\r", 0, b"b\r\n\na\n"),
    Call("tac with an empty line between LFs", ["tac"], b"a\n\nb", 0, b"b\n\na\n"),
    Call("caret", ["caret"], b"a\tb\177\r\n", 0, b"a^Ib^?^M\n"),
    Call("ends", ["ends", "FBB"], b"x\r\ny", 0, b"+x\n+y\n-\n"),
    Call("ends with an empty script", ["ends", ""], b"a", 0),
    Call("ends of two empty lines", ["ends", "BBFF"], b"\n\n", 0, b"+\n+\n-\n-\n"),
    Call("ends with starts and endings", ["ends", "-s", "FBB"], b"x\r\ny", 0, b"+0 crlf x\n+3 none y\n-\n"),
    Call("ends -s of four lines", ["ends", "-s", "FBBFF"], b"foo\r\nbar\n\nbaz\n", 0,
         b"+0 crlf foo\n+10 lf baz\n+9 lf \n+5 lf bar\n-\n"),
    Call("ends -s with an empty script", ["ends", "-s", ""], b"a", 0),
    Call("json", ["json"], b'a"b\n', 0, b'"a\\"b\\n"'),
    Call("json of nothing", ["json"], b"", 0, b'""'),
    Call("json of control characters and a slash", ["json"], b"\1\b/\177", 0, b'"\\u0001\\b/\177"'),
    Call("edit without a word", ["edit"], b"abc", 0, b"abc"),
    Call("edit of one word", ["edit", "u"], b"abc", 0, b"ABC"),
    Call("edit of three words", ["edit", "i1:def", "r0", "u"], b"abc", 0, b"DEFBC"),
    Call("edit that inserts a text with a colon", ["edit", "i1:a:b"], b"abc", 0, b"aa:bbc"),
    Call("edit of empty texts, and a number with zeros", ["edit", "p", "i3:", "t0003"], b"abc", 0, b"abc"),
    Call("edit that removes from the empty text", ["edit", *"oooo", "pX", "l"], b"abc", 0, b"x"),
    Call("edit of the largest number", ["edit", f"t{2**64 - 1}"], b"abc", 0, b"abc"),
    *map(long_word, (255, 256, 257, 512, 513, 100000)),
    Call("a byte above 127", ["copy"], b"ab\310", 1, b"", b"the byte at index 2 is not ASCII\n"),
    Call("a byte above 127 at the start", ["copy"], b"\200", 1, b"", b"the byte at index 0 is not ASCII\n"),
    Call("a byte above 127 on the second line", ["tac"], b"\n\310", 1, b"", b"the byte at index 1 is not ASCII\n"),
    Call("a byte above 127 before a bad position", ["edit", "r9"], b"\310", 1, b"",
         b"the byte at index 0 is not ASCII\n"),
    Call("an index of two digits", ["tac"], b"abcdefghijkl\200", 1, b"", b"the byte at index 12 is not ASCII\n"),
    Call("no word", [], b"abc", 2, b"", USAGE),
    Call("an unknown mode", ["cat"], b"abc", 2, b"", USAGE),
    Call("a word too many", ["copy", "x"], b"abc", 2, b"", USAGE),
    Call("json with a word", ["json", "x"], b"", 2, b"", USAGE),
    Call("ends without a script", ["ends"], b"x", 2, b"", USAGE),
    Call("ends with two scripts", ["ends", "F", "B"], b"abc", 2, b"", USAGE),
    Call("ends with two scripts, one of two letters", ["ends", "FB", "B"], b"x", 2, b"", USAGE),
    Call("ends -s without a script", ["ends", "-s"], b"x", 2, b"", USAGE),
    Call("ends with -s after the script", ["ends", "F", "-s"], b"x", 2, b"", USAGE),
    Call("ends -s with two scripts", ["ends", "-s", "F", "F"], b"x", 2, b"", USAGE),
    Call("ends with -s twice", ["ends", "-s", "-s"], b"x", 2, b"", b"bad word 2\n"),
    Call("ends with -S", ["ends", "-S"], b"x", 2, b"", b"bad word 1\n"),
    Call("a bad script after -s", ["ends", "-s", "FXB"], b"abc", 2, b"", b"bad word 2\n"),
    Call("a bad script after -s before a byte above 127", ["ends", "-s", "FX"], b"\200", 2, b"", b"bad word 2\n"),
    Call("a bad script", ["ends", "FXB"], b"x", 2, b"", b"bad word 1\n"),
    Call("a script with a bad end", ["ends", "FX"], b"abc", 2, b"", b"bad word 1\n"),
    *bad_words("i:x", "i1x", "r", "oo", f"t{2**64}", "p\u00e9", "r+1", ""),
    Call("a bad word", ["edit", "u", "rx"], b"abc", 2, b"", b"bad word 2\n"),
    Call("a bad word after 11 others", ["edit", *"uuuuuuuuuuu", "x"], b"abc", 2, b"", b"bad word 12\n"),
    Call("a bad word before a byte above 127", ["edit", "x"], b"\310", 2, b"", b"bad word 1\n"),
    Call("a bad word after a bad position", ["edit", "r9", "rx"], b"\310", 2, b"", b"bad word 2\n"),
    Call("a bad position", ["edit", "o", "r2"], b"abc", 2, b"", b"bad position in word 2\n"),
    Call("a bad position of an empty text", ["edit", "i4:"], b"abc", 2, b"", b"bad position in word 1\n"),
    Call("a bad position in word 11", ["edit", *"uuuuuuuuuu", "r9"], b"abc", 2, b"", b"bad position in word 11\n"),
    Call("arguments that are not valid UTF-8", [b"copy\310"], b"abc", 2, b"", USAGE),
    Call("an input that is closed", ["copy"], None, 3, b"", b"read failed\n"),
    Call("an input that fails after three bytes", ["copy"], Failing(b"abc"), 3, b"", b"read failed\n"),
    Call("an output that is full", ["copy"], b"abc", 3, b"", b"write failed\n", "full"),
    Call("an output that is full after two bytes", ["copy"], b"abcdef", 3, b"ab", b"write failed\n", "short"),
    Call("no word, and standard error is full", [], b"abc", 2, b"", Lost(USAGE)),
    Call("a bad word, and standard error is full", ["edit", "x"], b"abc", 2, b"", Lost(b"bad word 1\n")),
    Call("a bad position, and standard error is full", ["edit", "r9"], b"abc", 2, b"",
         Lost(b"bad position in word 1\n")),
    Call("a byte above 127, and standard error is full", ["copy"], b"a\310", 1, b"",
         Lost(b"the byte at index 1 is not ASCII\n")),
]

NOT_ASCII = [said(f"{name}: the byte at index 2 is not ASCII") for name in ("(standard input)", "other")]
HIGH = said("high: the byte at index 0 is not ASCII")
MISSING = said("none: No such file or directory (os error 2)")
FOLDER = said("folder: Is a directory (os error 21)")
FULL = said("(standard output): No space left on device (os error 28)")
SAME = said("own: input file is output file")
OPTIONS = said("--count, --max, --null and --quiet are options of check")
ESCAPED = b"""error: unexpected argument '--?[31m' found

  tip: to pass '--?[31m' as a value, use '-- --?[31m'

Usage: ascii_filter <MODE> [FILE]...

For more information, try '--help'.
"""
HELP = subprocess.run([TOP / "bin/ascii_filter", "--help"], capture_output=True).stdout
FILTER = [
    Call("copy", ["copy"], b"abc", 0, b"abc"),
    Call("copy of nothing", ["copy"], b"", 0),
    Call("lines", ["lines"], b"x\r\ny", 0, b"x\ny\n"),
    Call("caret", ["caret"], b"a\tb\177\r\n", 0, b"a^Ib^?^M\n"),
    Call("json", ["json"], b'a"b\n', 0, b'"a\\"b\\n"'),
    Call("upper", ["upper"], b"aBc1", 0, b"ABC1"),
    Call("lower", ["lower"], b"aBc1", 0, b"abc1"),
    Call("escape", ["escape"], b"a\n'\177\200", 0, b"a\\n\\'\\x7f\\x80"),
    Call("lossy", ["lossy"], b"a\200", 0, b"a?"),
    Call("files with bytes above 127", ["lossy", "other", "text"], b"", 0, b"ab?cx\r\ny"),
    Call("json of replaced bytes", ["--other=replace", "json"], b'a\200"\377', 0, b'"a?\\"?"'),
    Call("lines of replaced bytes", ["lines", "--other", "replace", "other", "text"], b"", 0, b"ab?c\nx\ny\n"),
    Call("escape of replaced bytes", ["escape", "--other=replace"], b"\n\200", 0, b"\\n?"),
    Call("lines of escaped bytes", ["lines", "--other=escape"], b'a\\\200\n"\377\n', 0, b'a\\\\x80\n"\\xff\n'),
    Call("json of escaped bytes", ["--other=escape", "json"], b"\304", 0, b'"\\\\xc4"'),
    Call("many escaped bytes", ["--other=escape", "copy"], b"\200" * 9_000 + b"a" * 9_000, 0, b"\\x80" * 9_000 + b"a" * 9_000),
    Call("--other=stop", ["upper", "--other=stop"], b"ab\310c", 1, b"AB", NOT_ASCII[0]),
    Call("--other=replace with check", ["check", "--other=replace"], b"", 2, b"", said("--other is not an option of check or lossy")),
    Call("--other=escape with check", ["check", "--other=escape"], b"", 2, b"", said("--other is not an option of check or lossy")),
    Call("--other=escape with lossy", ["lossy", "--other=escape"], b"\x80", 2, b"", said("--other is not an option of check or lossy")),
    Call("--other with another word", ["copy", "--other=drop"], b"", 2, b"", ANY),
    Call("a byte above 127", ["copy"], b"ab\310c", 1, b"ab", NOT_ASCII[0]),
    Call("files", ["upper", "text", "-", "empty", "text"], b"abc", 0, b"X\r\nYABCX\r\nY"),
    Call("a file that is not ASCII, on a line of its own", ["lines", "other", "text"], b"", 1, b"ab\nx\ny\n", NOT_ASCII[1]),
    Call("two files with open lines", ["lines", "text", "text"], b"", 0, b"x\ny\nx\ny\n"),
    Call("a file that is missing", ["lines", "none", "text"], b"", 3, b"x\ny\n", MISSING),
    Call("a folder", ["copy", "folder", "text"], b"", 3, b"x\r\ny", FOLDER),
    Call("two inputs as json", ["json", "text", "text"], b"", 2, b"", b"ascii_filter: json takes one input\n"),
    Call("check", ["check"], b"ab\304c\nxx\n\377y", 1,
         b"(standard input):1:3: byte 0xC4\n(standard input):3:1: byte 0xFF\n"),
    Call("check of ASCII", ["check"], b"a\nb", 0),
    Call("check of files", ["check", "text", "other"], b"", 1, b"other:1:3: byte 0xC8\n"),
    Call("check --count", ["check", "--count", "text", "other"], b"", 1, b"text:0\nother:1\n"),
    Call("check --max", ["check", "--max", "1"], b"\200\201\n\202", 1, b"(standard input):1:1: byte 0x80\n"),
    Call("check --quiet", ["check", "--quiet"], b"\200\201", 1),
    Call("short options", ["check", "-c", "-m1", "text", "other"], b"", 1, b"text:0\nother:1\n"),
    Call("check -q", ["check", "-q"], b"\200\201", 1),
    Call("check of a hostile name", ["check", HOSTILE], b"", 1, f"{QUOTED}:1:3: byte 0xC8\n".encode()),
    Call("check -0", ["check", "-0", HOSTILE, "it's"], b"", 1,
         HOSTILE.encode() + b"\x001:3: byte 0xC8\nit's\x001:1: byte 0x80\n"),
    Call("a name that is not UTF-8", ["check", os.fsdecode(b"n\xff")], b"", 3, b"", said(r"'n'$'\377': not valid UTF-8")),
    Call("check --null --count", ["check", "--null", "--count", "-", HOSTILE], b"a", 1,
         b"(standard input)\x000\n" + HOSTILE.encode() + b"\x001\n"),
    Call("a hostile name that is rejected", ["copy", HOSTILE], b"", 1, b"ab", said(f"{QUOTED}: the byte at index 2 is not ASCII")),
    Call("a hostile name that is missing", ["copy", "no\x7f\r"], b"", 3, b"",
         said(r"'no'$'\177\r': No such file or directory (os error 2)")),
    Call("a name with a quote", ["copy", "it's"], b"", 1, b"", said("\"it's\": the byte at index 0 is not ASCII")),
    Call("a name that is not valid UTF-8", ["copy", b"\310", "text"], b"", 3, b"x\r\ny", said(r"''$'\310': not valid UTF-8")),
    Call("a hostile word that is not an option", ["copy", "--\x1b[31m"], b"", 2, b"", ESCAPED),
    Call("-0 without check", ["copy", "-0"], b"", 2, b"", OPTIONS),
    Call("an option of check", ["copy", "--quiet"], b"", 2, b"", OPTIONS),
    Call("arguments that are not valid UTF-8", [b"copy\310"], b"", 2, b"", said("an argument is not valid UTF-8")),
    Call("an option that is not valid UTF-8", ["check", b"--max=\377"], b"", 2, b"", said("an argument is not valid UTF-8")),
    Call("a name after -- that is not valid UTF-8", ["copy", "--", b"-\377"], b"", 3, b"", said(r"'-'$'\377': not valid UTF-8")),
    Call("the version", ["--version"], b"", 0, f"ascii_filter {(TOP / 'VERSION').read_text()}".encode()),
    Call("the help, as the wrapper has it", ["--help"], b"", 0, HELP),
    Call("check of a folder", ["check", "folder"], b"", 3, b"", FOLDER),
    Call("no mode", [], b"", 2, b"", ANY),
    Call("an unknown mode", ["tac"], b"", 2, b"", ANY),
    Call("check of no byte", ["check", "--max", "0"], b"", 2, b"", ANY),
    Call("a pipe that closes early", ["copy", "long"], b"", 0, b"", b"", "closed"),
    Call("a byte that was found, and a pipe that closes", ["check", "other"], b"", 1, b"", b"", "closed"),
    Call("a file that was rejected, and a pipe that closes", ["copy", "high", "long"], b"", 1, b"", HIGH, "closed"),
    Call("a file that is missing, and a pipe that closes", ["copy", "none", "long"], b"", 3, b"", MISSING, "closed"),
    Call("its own output", ["copy", "own", "text"], b"", 3, OWN + b"x\r\ny", SAME, "own"),
    Call("its own output by another name", ["lines", "link"], b"", 3, OWN, said("link: input file is output file"), "own"),
    Call("its own output as standard input", ["json", "-"], b"", 3, OWN, said("(standard input): input file is output file"),
         "both"),
    Call("check of its own output", ["check", "own", "other"], b"", 3, OWN + b"other:1:3: byte 0xC8\n", SAME, "own"),
    Call("check of its own output without a line", ["check", "--quiet", "own"], b"", 0, OWN, b"", "own"),
    Call("an output that is full", ["copy", "text", "none"], b"", 3, b"", FULL, "full"),
]

OF_EXAMPLES = b"usage: examples events|head|host|ini|keys|lines|nmea|pager|paths|register|seen|spell|syslog|tally|tokens|uniq\n"
LINES_OF_A_REGISTER = b"GET\nhello\r\nGET\nno\377ascii\nGET\nQUIT\nGET\n"
REPLIES_OF_A_REGISTER = b"\nOK\nhello\nBAD\nhello\nBYE\n"
GREETING = b"READY for lines of 4096 bytes\n"
SPELLING = b"the cat's on a well-known mat\n\"The\tdog\", it's ON a mat --\n\n (cats)."
HEAD = b"GET /a?b HTTP/1.1\r\nHost: a.example\r\nContent-Type: text/plain; CHARSET=utf-8\r\n%s\r\nbody"
SETTINGS = b"; a comment\n[net]\nport = 80\n host:  a.example=b \n[disk]\npath =\n"
SENTENCE = b"$GPGGA,123519,4807.038,N,01131.000,E,1,08,0.9,545.4,M,46.9,M,,*"
SENTENCES = [SENTENCE + b"47", SENTENCE.replace(b"545.4", b"-545.4") + b"6A", SENTENCE + b"46",
             SENTENCE.replace(b"7.038", b"7.0.8") + b"5A", b"$GPRMC,123519,A*07", b"$GPGGA,123519*77", b"0abc~", b""]
FIXES = b"""4807.038N 1131E at 545.4 m, quality 1
4807.038N 1131E at -545.4 m, quality 1
3:1: the checksum is 47
4:15: field 2 is at fault
5:1: not a GGA sentence
6:2: there is no field 2
payload 0abc
"""
TEXT = b"TWO\none\nTwo and three\nthe two lines that are longer than one row\nend\n"
LOG = b"""<165>1 2003-10-12T00:14:15.003+02:00 mymachine.example.com evntslog - ID47 [exampleSDID@32473 iut="3" \
eventSource="Application"][b x="a\\"b"] An application event
<34>1 - host su 1 m -
<192>1 - h a p m -
<1>1 - h a p m -x
<0>1 - - - - - [a b="]
<0>1 2003-13-11T22:14:15Z - - - - -
"""
MESSAGES = b"""165 2003-10-11T22:14:15.003Z mymachine.example.com evntslog: An application event
- exampleSDID@32473
  iut: 3
  eventSource: Application
- b
  x: a"b
34 - host su:
column 2: expected a smaller number
column 17: expected ' '
column 21: expected a quoted text
column 6: expected a time
"""
TOKENS = b"""1:1: Word let
1:5: Word x_1
1:9: Mark =
1:12: Quoted a\\"b
1:18: Mark +
1:20: Number 42
1:22: Mark ;
1:25: Comment  done
2:2: Word y
let
x_1
y
"""
STORED = [(TOP / "crates/examples" / name).read_bytes() for name in ("stdin", "stdout")]
EXAMPLES = [
    Call("head", ["head"], HEAD % b"", 0, b"GET /a?b 1.1\nhost a.example\nheaders content-type;host\ncharset utf-8\n"),
    Call("head of a target with a host", ["head"], HEAD.replace(b"/a", b"HTTP://b.example:80") % b"", 0,
         b"GET HTTP://b.example:80?b 1.1\nhost b.example:80\nheaders content-type;host\ncharset utf-8\n"),
    Call("head with a header twice", ["head"], HEAD % b"HOST:b\r\n", 0, b"GET /a?b 1.1\nheader 2 comes twice\n"),
    Call("head of no request", ["head"], b"GET  / HTTP/1.1\r\n\r\n", 0, b"not a request line: GET  / HTTP/1.1\n"),
    Call("head of two digits after the point", ["head"], HEAD.replace(b"1.1", b"1.01") % b"", 0,
         b"not a request line: GET /a?b HTTP/1.01\n"),
    Call("head of a media type without a subtype", ["head"], HEAD.replace(b"plain", b"") % b"", 0,
         b"GET /a?b 1.1\nhost a.example\nheaders content-type;host\ncontent type, 1:6: expected a token\n"),
    Call("head without a header", ["head"], b"GET / HTTP/1.0\r\n\r\n", 0, b"GET / 1.0\nno host\nheaders \n"),
    Call("host", ["host"], b"Accept: */*\nHOST:  a.example\nx\303\244: 1\n", 0, b"a.example\nthe byte at index 1 is not ASCII\n"),
    Call("ini", ["ini"], SETTINGS, 0, b"3:8: [net] port = 80\n4:9: [net] host = a.example=b\n6:7: [disk] path = \n"),
    Call("ini of a line without a delimiter", ["ini"], b"[net]\n port\n", 0, b"2:2: no '=' or ':'\n"),
    Call("keys", ["keys"], b"host=a\nport\nz\303\244=1\n", 0, b"host\nport\nthe byte at index 1 is not ASCII\n"),
    Call("lines", ["lines"], STORED[0], 0, STORED[1]),
    Call("nmea", ["nmea"], b"\n".join(SENTENCES), 0, FIXES),
    Call("pager", ["pager"], TEXT, 0, b"the two lines that are l\nonger than one row\nend\n"),
    Call("pager of a byte above 127", ["pager"], b"two\n\303\244\n", 0, b"the byte at index 4 is not ASCII\n"),
    Call("pager of a word that is not there", ["pager"], b"four\none\n", 0, b"'four' not found\n"),
    Call("paths", ["paths"], b"./a-1/b_2.c\0./-a\0-\0b\n c\0\0\r\0d!", 0, b'"./-a"\n"-"\n"b\\n c"\n"\\r"\n"d!"\n'),
    Call("paths of a byte above 127", ["paths"], b"a\0b:\0c\303\244\0d:", 0, b'"b:"\nthe byte at index 6 is not ASCII\n'),
    Call("paths of a long name", ["paths"], b"a" * 4095 + b"\0" + b"-" * 4097, 0,
         b"the line or part at index 4096 is longer than the buffer\n"),
    Call("register", ["register"], LINES_OF_A_REGISTER, 0, REPLIES_OF_A_REGISTER, b"Closed\n"),
    Call("events", ["events"], LINES_OF_A_REGISTER, 0, GREETING + REPLIES_OF_A_REGISTER, b"Some(Closed)\n"),
    Call("events to the end of the input", ["events"], b"a\nGET", 0, GREETING + b"OK\na\n", b"Some(EndOfInput)\n"),
    Call("seen", ["seen"], b"b\na\r\nb\nB\n\nb\nb\n\n\na\nb\na", 0, b"b\na\nB\n\nb\n\n\na\nb\n"),
    Call("seen of a byte above 127", ["seen"], b"a\na\nz\303\244\n", 0, b"the byte at index 5 is not ASCII\n"),
    Call("spell", ["spell"], SPELLING, 0, b"2:6: dog\n2:12: it's\n4:3: cats\ncats\ndog\nit's\n"),
    Call("spell of one line", ["spell"], b"the", 0, b"no text\n"),
    Call("syslog", ["syslog"], LOG, 0, MESSAGES),
    Call("syslog of no line", ["syslog"], b"", 0, b""),
    Call("tally", ["tally"], b"To be, or not\tto BE,\n[to] TO\n", 0, b"1 [to]\n2 be,\n1 not\n1 or\n3 to\n"),
    Call("tally of no word", ["tally"], b" \n", 0, b""),
    Call("tally of a line that is rejected", ["tally"], b"b a\r\nA\nz\303\244\n", 0, b"2 a\n1 b\nthe byte at index 8 is not ASCII\n"),
    Call("tally of a long line", ["tally"], b"a\n" + b"b" * 65_537, 0,
         b"1 a\nthe line or part at index 2 is longer than the buffer\n"),
    Call("uniq", ["uniq"], b"b\na\r\nb\nB\n\nb", 0, b"1 \n1 B\n1 a\n3 b\n"),
    Call("uniq of a count with two digits", ["uniq"], b"b\n" + b"a\n" * 10, 0, b"10 a\n 1 b\n"),
    Call("uniq of no line", ["uniq"], b"", 0, b""),
    Call("uniq of a byte above 127", ["uniq"], b"a\nz\303\244\n", 0, b"the byte at index 3 is not ASCII\n"),
    Call("tally of a byte above 127", ["tally"], b"z\303\244\n", 0, b"the byte at index 1 is not ASCII\n"),
    Call("tokens", ["tokens"], b'let x_1 = "a\\"b" + 42; # done\n\ty\n', 0, TOKENS),
    Call("tokens of a text that is not closed", ["tokens"], b'a\n  "b\\"', 0, b"2:3: expected a quoted text\n"),
    Call("tokens of a control character", ["tokens"], b"a\n\1", 0, b"2:1: expected a token\n"),
    Call("an input that is not valid UTF-8", ["host"], b"\377\n", 1, b"", ANY),
    Call("no name", [], b"", 64, b"", OF_EXAMPLES),
    Call("an unknown name", ["key"], b"", 64, b"", OF_EXAMPLES),
    Call("a name that is longer than any", ["register" * 4], b"", 64, b"", OF_EXAMPLES),
]
CALLS = {"ascii_show": SHOW, "ascii_filter": FILTER, "examples": EXAMPLES}


def input_of(call):
    """A pipe that has the input, or a socket that is reset after it: its other end is closed with a byte unread."""
    if isinstance(call.given, Failing):
        ours, theirs = socket.socketpair()
        theirs.send(b"-")
        ours.send(call.given)
        ours.close()
        return theirs.detach()
    reads, writes = os.pipe()
    # The program starts once all of it is written, so the pipe has to hold it: a pipe of no set size holds 65,536 bytes.
    fcntl.fcntl(writes, fcntl.F_SETPIPE_SZ, max(65_536, len(call.given or b"")))
    with open(writes, "wb") as pipe:
        pipe.write(call.given or b"")
    return reads


def output_of(call, own):
    """Where the output goes."""
    if call.to == "full":
        return os.open("/dev/full", os.O_WRONLY)
    if call.to == "closed":
        reads, writes = os.pipe()
        os.close(reads)
        return writes
    return os.open(own, os.O_WRONLY | os.O_APPEND) if call.to else subprocess.PIPE


def redirection_of(call):
    """What a shell changes of the call's streams."""
    if isinstance(call.line, Lost):
        return "2>/dev/full"
    return "<&-" if call.given is None else "<own" if call.to == "both" else ""


def limit_files(call):
    """Limits the files of this process: the system stops a call that writes a larger one, or fails its write if the
    file is short."""
    if call.to == "short":
        signal.signal(signal.SIGXFSZ, signal.SIG_IGN)
    size = 2 if call.to == "short" else LARGEST
    resource.setrlimit(resource.RLIMIT_FSIZE, (size, size))


def answer_of(program, call, folder):
    """Makes a call in a folder that has the files."""
    command = [program, *call.arguments]
    if redirection_of(call):
        command = ["sh", "-c", f'exec "$0" "$@" {redirection_of(call)}', *command]
    own = Path(folder) / "own"
    own.write_bytes(b"" if call.to == "short" else OWN)
    given, output = input_of(call), output_of(call, own)
    try:
        ran = run_apart(command, cwd=folder, stdin=given, stdout=output, preexec_fn=lambda: limit_files(call))
        left = os.read(given, 65_536)
    finally:
        os.close(given)
        if call.to:
            os.close(output)
    writes = (ANY,) if call.line == ANY and ran.stderr else ran.stderr
    written = own.read_bytes() if call.to in ("own", "both", "short") else ran.stdout or b""
    return Answer(ran.returncode, written, writes, left)


def names_of_many_bytes():
    """Names of files that do not exist: each byte alone and between two letters, and short ones of bytes that shells know."""
    bytes_of = [bytes([code]) for code in range(1, 128) if code != ord("/")]
    chosen = random.Random(1)
    short = [b"".join(chosen.choices(bytes_of, k=chosen.randint(2, 8))) for _ in range(2000)]
    return [b"no" + name for name in bytes_of + short] + [name + b"no" for name in bytes_of + short if name[:1] != b"-"]


def is_quoted_alike(name, got, want):
    """Coreutils 9.1 write two quotes more at the start of a name that has a single quote and ends with an escape."""
    return got == want or b"'" in name and want == b"''" + got


class QuotedNames(unittest.TestCase):
    """Names in messages, compared with those of GNU coreutils."""

    call = namedtuple("Named", "name")("names as coreutils quote them")

    def runTest(self):
        if b"GNU coreutils" not in subprocess.run(["cat", "--version"], capture_output=True).stdout:
            self.skipTest("cat is not that of GNU coreutils")
        names, program = names_of_many_bytes(), TOP / "crates/ascii_filter/out/ascii_filter"
        with tempfile.TemporaryDirectory() as folder:
            run = lambda *words: subprocess.run([*words, "--", *names], cwd=folder, capture_output=True, env={"LC_ALL": "C"})
            theirs, ours = run("cat").stderr.splitlines(), run(program, "copy").stderr.splitlines()
        end, longer = b": No such file or directory", b" (os error 2)"
        want = [line.removeprefix(b"cat: ").removesuffix(end) for line in theirs]
        got = [line.removeprefix(b"ascii_filter: ").removesuffix(end + longer) for line in ours]
        self.assertEqual([row for row in zip(names, got, want) if not is_quoted_alike(*row)], [])
        self.assertEqual((len(got), len(want)), (len(names), len(names)))


class CallOfProgram(unittest.TestCase):
    """One call. Its name is that of the call, so that it can be run alone."""

    maxDiff = None

    def __init__(self, crate, call, folder):
        super().__init__()
        self.crate, self.call, self.folder = crate, call, folder

    def runTest(self):
        program = str(TOP / "crates" / self.crate / "out" / self.crate)
        got = answer_of(program, self.call, self.folder)
        writes = (self.call.line,) if self.call.line and not isinstance(self.call.line, Lost) else ()
        self.assertEqual(got, Answer(self.call.status, self.call.output, writes, self.call.left))


def suite(crate, names, folder):
    """The calls of a program, or those of them that are named; `folder` is an empty folder for the files."""
    for name, text in FILES.items():
        (Path(folder) / name).write_bytes(text)
    (Path(folder) / "folder").mkdir()
    (Path(folder) / "link").symlink_to("own")
    calls = [CallOfProgram(crate, call, folder) for call in CALLS[crate]] + memory_limits.tests(crate)
    calls += [QuotedNames()] if crate == "ascii_filter" else []
    return unittest.TestSuite(it for it in calls if not names or it.call.name in names)
