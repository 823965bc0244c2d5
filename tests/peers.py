#!/usr/bin/env python3
"""Times the program beside its peers over captures: with the default options and with one worker, `softflowd -r` and `suricata -r` with one
thread, where these are installed. All run in turn, RUNS times (5); told are the least and the median of the seconds, the least of the processor's
seconds, and the greatest resident memory.

    tests/peers.py [--runs RUNS] CAPTURE..

Suricata writes flow, netflow and stats records, and has no rules. All run with huge pages asked of the C library, as bin/suri_run has it, but where
GLIBC_TUNABLES is set. No part of the gate.
"""
import argparse
import os
import pathlib
import re
import shutil
import statistics
import subprocess
import tempfile
import time

TOP = pathlib.Path(__file__).resolve().parent.parent
OUTPUTS = """
outputs:
  - eve-log:
      enabled: yes
      filetype: regular
      filename: eve.json
      types: [flow, netflow, {stats: {totals: yes, threads: no, deltas: no}}]
"""


def suricata_words(work):
    """The words of a run of suricata whose configuration is the installed one with these outputs alone."""
    installed = pathlib.Path("/etc/suricata/suricata.yaml").read_text()
    own = work / "suricata.yaml"
    own.write_text(re.sub(r"\noutputs:\n.*?(?=\n[a-z#])", lambda found: OUTPUTS, installed, count=1, flags=re.S))
    return ["suricata", "-c", str(own), "-S", "/dev/null", "-l", str(work), "--runmode", "single", "-r"]


def programs(work):
    """Each program's name, its words, and whether the capture stands last among them, or is standard input."""
    run = str(TOP / "crates" / "suri_run" / "out" / "suri_run")
    found = [("suri_run", [run], False), ("suri_run, 1 worker", [run, "--workers", "1"], False)]
    if shutil.which("softflowd"):
        found.append(("softflowd", ["softflowd", "-n", "127.0.0.1:9995", "-d", "-r"], True))
    if shutil.which("suricata"):
        found.append(("suricata", suricata_words(work), True))
    return found


def timed(words, takes_name, capture):
    """The seconds that a run takes, those of the processor, and its greatest resident memory in MB."""
    with open(capture, "rb") as given, open(os.devnull, "wb") as nothing:
        began = time.monotonic()
        own = {"GLIBC_TUNABLES": "glibc.malloc.hugetlb=1", **os.environ}
        run = subprocess.Popen([*words, capture] if takes_name else words, stdin=None if takes_name else given, stdout=nothing, stderr=nothing, env=own)
        _, status, used = os.wait4(run.pid, 0)
        run.returncode = status
    return time.monotonic() - began, used.ru_utime + used.ru_stime, used.ru_maxrss >> 10


def main():
    words = argparse.ArgumentParser()
    words.add_argument("--runs", type=int, default=5)
    words.add_argument("captures", nargs="+")
    given = words.parse_args()
    # builds the program where that is needed
    subprocess.run([TOP / "bin" / "suri_run"], stdin=subprocess.DEVNULL, stdout=subprocess.DEVNULL, stderr=subprocess.DEVNULL)
    with tempfile.TemporaryDirectory() as folder:
        work = pathlib.Path(folder)
        for capture in given.captures:
            seen = {}
            for _ in range(given.runs):
                for name, own, takes_name in programs(work):
                    seen.setdefault(name, []).append(timed(own, takes_name, capture))
                    (work / "eve.json").unlink(missing_ok=True)
            print(capture)
            for name, runs in seen.items():
                times, used, memory = zip(*runs)
                print(f"  {name:20} {min(times):7.2f} s, median {statistics.median(times):6.2f} s, processor {min(used):6.2f} s, {max(memory):5} MB")


if __name__ == "__main__":
    main()
