#!/usr/bin/env python3
"""What a line of a script costs: instructions per line, and memory per row.

usage: count.py PROGRAM [NAME ..]

PROGRAM is a built `shelf`. Without names each workload is measured. The output is a table in Markdown. Instructions are
counted by valgrind's callgrind, so another program on the machine changes nothing.
"""

import os
import re
import subprocess
import sys
import tempfile
from collections import namedtuple

# A script of `setup` and then `count` or twice as many times `line`, in which {i} is the number of the repetition.
Work = namedtuple("Work", "name setup line count")

ROWS = 1000


def numbered(line, first=0, end=ROWS):
    return [line.format(i=i) for i in range(first, end)]


LINKED = ["new m LinkedHashMap"] + numbered("m.put({i}, {i})")
SORTED = ["new m TreeMap"] + numbered("m.put({i}, {i})")
SET = ["new s TreeSet"] + numbered("s.add({i})")
LIST = ["new l ArrayList"] + numbered("l.add({i})")

INSTRUCTIONS = [
    Work("linked: put of a new key", ["new m LinkedHashMap"], "m.put({i}, {i})", 4000),
    Work("linked: put of a present key", LINKED, "m.put({row}, {i})", 4000),
    Work("linked: get", LINKED, "m.get({row})", 4000),
    Work("linked: get of an absent key", LINKED, "m.get(k{i})", 4000),
    Work("linked: contains in the set of keys", LINKED, "m.keySet.contains({row})", 4000),
    Work("linked: remove", LINKED, "m.remove({i})", ROWS // 2),
    Work("sorted: put of a new key", ["new m TreeMap"], "m.put({i}, {i})", 4000),
    Work("sorted: get", SORTED, "m.get({row})", 4000),
    Work("sorted: remove", SORTED, "m.remove({i})", ROWS // 2),
    Work("list: get", LIST, "l.get({row})", 4000),
    Work("list: indexOf, half way", LIST, "l.indexOf(500)", 200),
    Work("filter: get", LINKED, "m.filterKeys(lt(500)).get({row})", 2000),
    Work("filter of a named view: get", LINKED + ["let v = m.filterKeys(lt(500))"], "v.get({row})", 2000),
    Work("five steps: contains", SORTED, "m.within([5..900]).filterKeys(even).transformValues(neg).keySet.contains({row})", 2000),
    Work("walk: size of a filter of 1,000 rows", LINKED, "m.filterValues(even).size", 100),
    Work("walk: print 1,000 rows", LINKED, "m", 20),
    Work("walk: print 1,000 rows, sorted", SORTED, "m", 20),
    Work("walk: print a window of 10 of 1,000 rows", SET, "s.within([500..509])", 500),
    Work("walk: removeAll of 1,000 that are not there", SET + ["new l ArrayList"] + numbered("l.add(k{i})"), "s.removeAll(l)", 20),
]

# The greatest resident size is at least that of this process, so rows are counted by the hundred thousand, and handles,
# of which there are at most 65,536, not at all.
MEMORY = [
    Work("row: of a linked map", ["new m LinkedHashMap"], "m.put({i}, {i})", 400000),
]


def write_script(path, work, count):
    lines = work.setup + [work.line.format(i=i, row=i % ROWS) for i in range(count)]
    with open(path, "w", encoding="utf-8") as script:
        script.write("\n".join(lines) + "\n")


def instructions(program, folder):
    """The instructions of one run of the script in the folder."""
    profile = os.path.join(folder, "profile")
    # Callgrind counts an instruction for each byte that a string instruction moves. So glibc is told to move bytes by
    # vectors, as it does anyway for fewer than some thousands.
    tunables = "glibc.cpu.x86_rep_movsb_threshold=1000000000:glibc.cpu.x86_rep_stosb_threshold=1000000000"
    run_script(["valgrind", "-q", "--tool=callgrind", "--callgrind-out-file=" + profile, program], folder, GLIBC_TUNABLES=tunables)
    with open(profile, encoding="utf-8") as lines:
        return int(re.search(r"^(?:totals|summary): (\d+)", lines.read(), re.MULTILINE).group(1))


def peak_bytes(program, folder):
    """The greatest memory that one run of the script in the folder had resident."""
    return run_script([program], folder) * 1024


def run_script(command, folder, **more):
    """Runs the script in the folder; gives the greatest resident size in KiB, as Linux counts it."""
    with open(os.path.join(folder, "script"), "rb") as script, open(os.path.join(folder, "replies"), "wb") as replies:
        child = subprocess.Popen(command + ["run"], stdin=script, stdout=replies, cwd=folder, env=dict(os.environ, **more))
        _, status, used = os.wait4(child.pid, 0)
    if status != 0:
        sys.exit("%s ended with wait status %d" % (" ".join(command), status))
    with open(os.path.join(folder, "replies"), "rb") as replies:
        refused = re.search(rb"^\?.*$|^\w+Exception$", replies.read(), re.MULTILINE)
    if refused:
        sys.exit("a line was refused: %s" % refused.group().decode())
    return used.ru_maxrss


def per_line(measure, program, work):
    """What a repetition adds: two runs with n and 2n of them, so that all else cancels."""
    totals = []
    for count in (work.count, 2 * work.count):
        with tempfile.TemporaryDirectory() as folder:
            write_script(os.path.join(folder, "script"), work, count)
            totals.append(measure(program, folder))
    return (totals[1] - totals[0]) / work.count


def table(title, unit, measure, program, works):
    if not works:
        return
    print("| %s | Line | %s |\n|---|---|---|" % (title, unit))
    for work in works:
        print("| %s | `%s` | %s |" % (work.name, work.line, format(round(per_line(measure, program, work)), ",")), flush=True)
    print()


def main():
    if len(sys.argv) < 2:
        sys.exit(__doc__)
    program, names = os.path.abspath(sys.argv[1]), sys.argv[2:]
    unknown = set(names) - {work.name for work in INSTRUCTIONS + MEMORY}
    if unknown:
        sys.exit("no such workload: " + ", ".join(sorted(unknown)))
    chosen = lambda works: [work for work in works if not names or work.name in names]
    table("Instructions", "a line", instructions, program, chosen(INSTRUCTIONS))
    table("Memory", "bytes", peak_bytes, program, chosen(MEMORY))


main()
