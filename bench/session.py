#!/usr/bin/env python3
"""Measures the built program: makes inputs, runs it on them, and prints a table.

    ./tinymist_session < examples/two_views.session   # builds the program
    python3 bench/session.py

Only the standard library is used. It is no part of the gate.
"""
import os
import subprocess
import sys
import tempfile
import time

HERE = os.path.dirname(os.path.abspath(__file__))
PROGRAM = os.path.join(HERE, "..", "crates", "tinymist_session_main", "out", "tinymist_session_main")
MIB = 1 << 20


def maps(count, paths=64, size=64):
    """Lines that map so many paths in turn to contents of so many bytes."""
    lines = []
    for i in range(count):
        content = ("%02x" % (i % 251)) * size
        lines.append("map\t0\t/w/f%d.typ\t=%s\n" % (i % paths, content))
    return "".join(lines).encode()


def reads(count, paths=64):
    """Lines that read so many paths of one view in turn."""
    lines = ["snapshot\n"]
    for i in range(count):
        lines.append("read\t1\t/w/f%d.typ\n" % (i % paths))
    return maps(paths) + "".join(lines).encode()


def contents(count, size):
    """So many contents of so many bytes, each mapped and then read."""
    line = b"".join(b"map\t0\t/w/f%d.typ\t=" % i + b"7a" * size + b"\n" for i in range(count))
    return line + b"snapshot\n" + b"".join(b"read\t1\t/w/f%d.typ\n" % i for i in range(count))


def triples(files, count=5000):
    """So many files, and then triples of a snapshot, a map and a read of that view."""
    lines = []
    for i in range(count):
        lines.append("snapshot\nmap\t0\t/w/f%d.typ\t=%04x\nread\t%d\t/w/f%d.typ\n" % (i % files, i, i + 1, i % files))
    return maps(files, files, 8) + "".join(lines).encode()


def notified(paths=5000):
    """One change set that tells so many paths."""
    return ("notify" + "".join("\t+/w/f%d.typ\t=00" % i for i in range(paths)) + "\n").encode()


def notifies(count, items=1000, paths=5000):
    """So many change sets of so many items over so many told paths."""
    lines = []
    for i in range(count):
        files = ("\t+/w/f%d.typ\t=%04x" % ((i * 37 + k * 5) % paths, i) for k in range(items))
        lines.append("notify" + "".join(files) + "\n")
    return notified(paths) + "".join(lines).encode()


def history(revisions, paths=500):
    """Maps that make so many revisions."""
    return "".join("map\t0\t/w/h%d.typ\t=%08x\n" % (i % paths, i) for i in range(revisions)).encode()


def cleans(revisions, ids, total=100_000):
    """After so many revisions, questions for so many ids at a time, all of them clean since the first revision."""
    words = "".join("\t/w/c%d.typ" % i for i in range(ids))
    return history(revisions) + ("clean\t0\t2" + words + "\n").encode() * (total // ids)


WORDS = ("session", "--max-lines", "4000000", "--max-line", "200000000")


def measure(path):
    """Runs the program on a file, and prints the wall, user and system time in seconds, the peak memory in KiB, and the
    bytes written. It is a process of its own, since a child's peak is at least that of the process that started it."""
    with open(path, "rb") as source, tempfile.TemporaryFile() as sink:
        begin = time.perf_counter()
        child = subprocess.Popen([PROGRAM, *WORDS], stdin=source, stdout=sink)
        _, status, usage = os.wait4(child.pid, 0)
        wall = time.perf_counter() - begin
        child.returncode = os.waitstatus_to_exitcode(status)
        if child.returncode != 0:
            sys.exit("the program ended with status %d" % child.returncode)
        print(wall, usage.ru_utime, usage.ru_stime, usage.ru_maxrss, os.fstat(sink.fileno()).st_size)


def run(data):
    """What `measure` prints of this input, as numbers."""
    with tempfile.NamedTemporaryFile() as source:
        source.write(data)
        source.flush()
        told = subprocess.run([sys.executable, __file__, source.name], stdout=subprocess.PIPE, check=True).stdout
    return tuple(float(word) for word in told.split())


def row(name, data, before=None, items=0):
    """Prints what the input takes; with an input of what comes before, the time of each of so many items after it too."""
    wall, user, system, peak, written = min(run(data) for _ in range(3))
    lines = data.count(b"\n")
    each = ""
    if before is not None:
        each = " %8.2f us each" % ((user + system - sum(min(run(before) for _ in range(3))[1:3])) * 1e6 / items)
    print("%-44s %9d %8.1f %8.3f %8.3f %8.3f %10.0f %8.1f %8.1f%s" % (
        name, lines, len(data) / MIB, wall, user, system, lines / wall, (len(data) + written) / MIB / wall, peak / 1024, each))
    sys.stdout.flush()


def main():
    if not os.path.exists(PROGRAM):
        sys.exit("build the program first: ./tinymist_session < examples/two_views.session")
    print("%-44s %9s %8s %8s %8s %8s %10s %8s %8s" % (
        "best of three runs", "lines", "MiB in", "wall s", "user s", "sys s", "lines/s", "MiB/s", "MiB peak"))
    row("maps of 64 bytes over 64 paths", maps(100_000))
    row("  twice as many", maps(200_000))
    row("reads of one view", reads(100_000))
    row("  twice as many", reads(200_000))
    row("64 contents of 1 MiB, mapped and read", contents(64, MIB))
    row("one line of 8 MiB", contents(1, 4 * MIB))
    row("  of 16 MiB", contents(1, 8 * MIB))
    row("  of 32 MiB", contents(1, 16 * MIB))
    for files in (100, 1000, 10_000, 100_000):
        row("5,000 snapshot, map, read over %d files" % files, triples(files), maps(files, files, 8), 5000)
    row("200 change sets of 1,000 over 5,000 paths", notifies(200), notified(), 200_000)
    for revisions in (100, 3000, 50_000):
        for ids in (1, 10, 1000):
            name = "clean of %d ids after %d revisions" % (ids, revisions)
            row(name, cleans(revisions, ids), history(revisions), 100_000)


if __name__ == "__main__":
    if len(sys.argv) == 2:
        measure(sys.argv[1])
    else:
        main()
