"""Runs of the proved program that are measured: their event files, and what a run takes."""

import os
import subprocess
import sys
import tempfile
import time

TOP = os.path.dirname(os.path.dirname(os.path.abspath(__file__)))
PROGRAM = os.path.join(TOP, "crates", "replay", "out", "replay")
TIME = "/usr/bin/time"

# ten times the events have to take less than this many times as long
MOST_RATIO = 12


def spir(association):
    """The responder's SPI of an association; they are counted from 0."""
    return f"{0x0001_0000_0000_0002 + association:016x}"


def import_line(association):
    spi_in = 0x0001_0001 + 2 * association
    return (
        f"0 import 0001000000000001 {spir(association)} 128 fqdn:70656572 " + "11" * 32 + " " + "22" * 20 + " " + "33" * 20
        + " " + "44" * 32 + " " + "55" * 32 + f" {spi_in:08x} {spi_in + 1:08x} " + "66" * 20 + " " + "77" * 20 + " 1 1 1 0 0"
    )


def join_line(member):
    return f"0 join {member:048x}"


def measured(name, lines, wanted=None):
    """Plays these lines, prints what the run took, and gives the seconds. `wanted` says how often a text stands in the report."""
    with tempfile.TemporaryFile() as events, tempfile.TemporaryFile() as report, tempfile.NamedTemporaryFile("r") as peak:
        events.write(("\n".join(["ha 1", *lines]) + "\n").encode())
        events.seek(0)
        # its own child, since the memory of this process would count as that of a child
        command = [TIME, "--quiet", "-f", "%M", "-o", peak.name, PROGRAM, "run"]
        begun = time.perf_counter()
        status = subprocess.run(command, stdin=events, stdout=report).returncode
        seconds = time.perf_counter() - begun
        report.seek(0)
        text = report.read()
        megabytes = int(peak.read()) / 1024
    check(name, status, text, len(lines), wanted or {})
    rate = len(lines) / seconds
    print(f"{name}: {len(lines)} events: {seconds:.2f} s, {rate:.0f} events a second, peak memory {megabytes:.0f} MB")
    return seconds


def check(name, status, report, events, wanted):
    if status != 0 or not report.endswith(f"\nend {events}\n".encode()):
        sys.exit(f"{name}: the program ended with status {status} after {report[-80:]!r}")
    for text, count in wanted.items():
        found = report.count(f"\n{text}".encode())
        if found != count:
            sys.exit(f"{name}: {text!r} stands in the report {found} times, and not {count}")


def compared(few, many):
    """Prints the ratio of two times, and tells whether it is one of cost that grows with the work."""
    ratio = many / few
    print(f"ratio of the times: {ratio:.1f}")
    return ratio < MOST_RATIO


def needs_program():
    if not os.path.exists(PROGRAM):
        sys.exit("there is no program yet: build it with 'rt ci', or with 'rt run' in crates/replay")
    if not os.path.exists(TIME):
        sys.exit(f"{TIME} is not there, which tells the peak memory")
