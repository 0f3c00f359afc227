#!/usr/bin/env python3
"""Keeps the stored run of the program equal to the documents.

    python3 docs/check.py              whether crates/shelf/stdin and stdout are made of the documents as they stand
    python3 docs/check.py --write      makes these two files
    python3 docs/check.py PROGRAM      runs each example by itself through the program, and compares the replies

The documents are the examples in README.md and docs/GUIDE.md, fenced as `shelf`, and the scripts of examples/, each with its
replies beside it. A line of a fenced example is a line of a script, two spaces or more, and its reply.
"""

import re
import subprocess
import sys
from pathlib import Path

ROOT = Path(__file__).resolve().parent.parent
PAGES = ("README.md", "docs/GUIDE.md")
STORED = ROOT / "crates" / "shelf"
FENCED = re.compile(r"^#+ (?P<heading>[^\n]*)$|^```shelf\n(?P<lines>.*?)^```$", re.MULTILINE | re.DOTALL)


def told_line(line):
    """A line of a script, and its reply, which a comment has not."""
    if line.startswith("#"):
        return line + "\n", ""
    parts = re.split(r" {2,}", line)
    if len(parts) != 2:
        raise SystemExit(f"no reply behind two spaces: {line}")
    return parts[0] + "\n", parts[1] + "\n"


def fenced(page):
    """The examples of a page: the heading above, the script, and its replies."""
    heading = ""
    for found in FENCED.finditer((ROOT / page).read_text(encoding="utf-8")):
        if found["lines"] is None:
            heading = found["heading"]
            continue
        told = [told_line(line) for line in found["lines"].splitlines()]
        yield f"{page}: {heading}", "".join(call for call, _ in told), "".join(reply for _, reply in told)


def pieces():
    """All examples, in the order of the stored run."""
    for page in PAGES:
        yield from fenced(page)
    for script in sorted((ROOT / "examples").glob("*.shelf")):
        replies = script.with_suffix(".replies")
        yield f"examples/{script.name}", script.read_text(encoding="utf-8"), replies.read_text(encoding="utf-8")


def stored():
    """The files of the stored run, each with what it has to hold."""
    scripts, replies = [], []
    for name, script, told in pieces():
        scripts.append(f"# {name}\n{script}\n")
        replies.append(told)
    return {STORED / "stdin": "".join(scripts), STORED / "stdout": "".join(replies)}


def run(program):
    """The examples that a program answers otherwise, each run by itself."""
    wrong = []
    for name, script, replies in pieces():
        done = subprocess.run([program, "run"], input=script.encode(), stdout=subprocess.PIPE, check=False)
        if (done.returncode, done.stdout) != (0, replies.encode()):
            wrong.append(name)
    return wrong


def main(words):
    if words == ["--write"]:
        for path, text in stored().items():
            path.write_text(text, encoding="utf-8")
        return 0
    if words:
        wrong = run(words[0])
    else:
        wrong = [str(path.relative_to(ROOT)) for path, text in stored().items() if path.read_text(encoding="utf-8") != text]
    for name in wrong:
        print(f"not as the documents say: {name}")
    return 1 if wrong else 0


if __name__ == "__main__":
    sys.exit(main(sys.argv[1:]))
