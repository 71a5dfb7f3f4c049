"""Looks in the paragraphs of pages, in the comments of sources and scripts, and in the texts that programs print, for words that
a reader would stumble over.

words.txt in the folder of this file lists them, each with what to write instead."""
import re
import subprocess
from pathlib import Path

from made import TOP
from sources import read

FOLDER = Path(__file__).resolve().parent

# The prose of a file: all of a page but its blocks of code, and the comments of the other files.
COMMENTS = {".rt": r"//[/!]?(.*)", ".rs": r"//[/!]?(.*)", ".antt": r"--(.*)", ".edit": r"^#(.*)", ".h": r"[/ ]\*+(.*)",
            ".c": r"[/ ]\*+(.*)", ".py": r"#(.*)|\"{3}(.*)", ".md": None}


# A text that a program may print: a literal of a line that has some words.
LITERAL = re.compile(r'"((?:[^"\\\n]|\\.)*)"')
FEWEST_WORDS = 4
PROGRAMS = {".rt", ".rs", ".c", ".py"}


def literals(file):
    """The texts of the literals of a program, each with its line, except those of its tests."""
    text = read(file)
    kind = ".py" if text.startswith("#!") else file.suffix
    if kind not in PROGRAMS or "test" in str(file.relative_to(TOP)):
        return
    for number, line in enumerate(text.splitlines(), 1):
        if not re.match(r"\s*(//|#|--|\"\"\")", line):
            for found in LITERAL.finditer(line):
                if len(re.findall(r"[A-Za-z]{2,}", found[1])) >= FEWEST_WORDS:
                    yield found[1], [number] * (len(found[1]) + 1)


def prose(file):
    """The lines of prose of a file, as pairs of a number and a text."""
    text = read(file)
    kind = ".py" if text.startswith("#!") else file.suffix
    is_code = False
    for number, line in enumerate(text.splitlines(), 1):
        if kind == ".md":
            is_code ^= line.startswith("```")
            if not is_code and not line.startswith("    "):
                yield number, re.sub(r"`[^`]*`", "``", line)
        elif comment := re.search(COMMENTS[kind], line):
            yield number, re.sub(r"`[^`]*`", "``", next(filter(None, comment.groups()), ""))


def paragraphs(file):
    """The paragraphs of prose of a file: each a text, and the number of the line at each position of it."""
    texts, numbers = [], []
    for number, line in prose(file):
        if numbers and (number != numbers[-1] + 1 or not line.strip()):
            yield " ".join(texts), [n for text, n in zip(texts, numbers) for _ in f"{text} "]
            texts, numbers = [], []
        if line.strip():
            texts, numbers = [*texts, line.strip()], [*numbers, number]
    if texts:
        yield " ".join(texts), [n for text, n in zip(texts, numbers) for _ in f"{text} "]


def is_script(file):
    """Whether a file without a suffix is a script: its first bytes say so, and the others may be any."""
    return not file.suffix and file.read_bytes().startswith(b"#!")


def faults():
    """The words that read badly, each with its file and line."""
    patterns, exceptions = [], []
    for line in read(FOLDER / "words.txt").splitlines():
        if line.startswith("except: "):
            exceptions.append(line[len("except: ") :])
        elif not line.startswith("#"):
            pattern, _, better = line.partition("=>")
            patterns.append((re.compile(pattern.strip(), re.IGNORECASE), better.strip()))
    listed = subprocess.run(["git", "ls-files"], cwd=TOP, capture_output=True, text=True, check=True).stdout.split()
    files = [TOP / name for name in listed if not name.endswith("words.txt")]
    files = [f for f in files if f.is_file() and (f.suffix in COMMENTS or is_script(f))]
    wrong = []
    for file in files:
        for text, numbers in [*paragraphs(file), *literals(file)]:
            for exception in exceptions:  # of the same length, so that each position keeps its line
                text = text.replace(exception, " " * len(exception))
            wrong += [f"{file.relative_to(TOP)}:{numbers[found.start()]}: {found.group()!r}: {better}"
                      for pattern, better in patterns for found in pattern.finditer(text)]
    return wrong
