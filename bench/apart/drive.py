"""Runs a program on each file and prints which answers differ from the expected ones.
    drive.py [--jobs N] [--timeout S] [--from N] [--to N] [--only F8] PROGRAM [WORD ...]
    drive.py --cuts FILE[,FILE..] [--jobs N] PROGRAM [WORD ...]    each of the files cut at every byte, against the checker
The program reads a network file on standard input. Its answer is one of:
    netsym: refused F<k> <place>     (status 3)
    the printed network              (begins with `version = `; compared with printed/)
    a report, or `netsym: limit ..`  (the file was accepted; where the expected answer of the program is F0, that differs)"""
import argparse
import os
import re
import subprocess
import sys
from concurrent.futures import ThreadPoolExecutor

import checker

HERE = os.path.dirname(os.path.abspath(__file__))


def short(x):
    return x if len(x) < 90 else x[:90] + ".."


def run(command, data, timeout):
    try:
        p = subprocess.run(command, input=data, stdout=subprocess.PIPE, stderr=subprocess.PIPE, timeout=timeout)
    except subprocess.TimeoutExpired:
        return None, b"", b""
    return p.returncode, p.stdout, p.stderr


def judge(command, data, want, want_program, text, timeout):
    """None where the answer is right, 'slow' where it did not come, else what was answered."""
    status, out, err = run(command, data, timeout)
    if status is None:
        return "slow"
    line = (out or err).decode("utf-8", "replace")
    m = re.match(r"(?:netsym: refused )?(F\d+ \S+)\n?\Z", line)
    if m:
        got = m.group(1)
        if line.startswith("netsym:") and status != 3:
            return f"{got}, but status {status}"
        if got == want or (got == "F0 -" and want_program == "F0 -"):
            return None
        return got
    if out.startswith(b"version = "):
        if want != "OK":
            return "a printed network"
        shown = out.decode("utf-8", "replace")
        return None if text is None or shown == text else "another printed network: " + short(repr(shown))
    if line.startswith("report ") or re.match(r"netsym: limit (states|dstates) tick \d+\n\Z", line):
        good = status in ((7,) if line.startswith("netsym") else (0, 1, 8))
        if not good:
            return f"status {status} with {short(repr(line))}"
        return None if want_program == "OK" else "accepted: " + short(repr(line.split(chr(10))[0]))
    return f"status {status}, {short(repr(line))}"


def main():
    a = argparse.ArgumentParser()
    a.add_argument("--jobs", type=int, default=2)
    a.add_argument("--timeout", type=float, default=20)
    a.add_argument("--from", dest="low", type=int, default=0)
    a.add_argument("--to", dest="high", type=int, default=10 ** 9)
    a.add_argument("--only", default=None)
    a.add_argument("--cuts", default=None)
    a.add_argument("command", nargs=argparse.REMAINDER)
    o = a.parse_args()
    if not o.command:
        a.error("name a program")
    if o.cuts:
        def jobs():
            for path in o.cuts.split(","):
                whole = open(path, "rb").read()
                for k in range(len(whole) + 1):
                    yield f"{os.path.basename(path)} cut at {k}", whole[:k], None
    else:
        want = dict(x.rstrip("\n").split(" ", 1) for x in open(os.path.join(HERE, "expected")))
        want_program = dict(x.rstrip("\n").split(" ", 1) for x in open(os.path.join(HERE, "expected_program")))
        notes = dict(x.rstrip("\n").split(" ", 1) for x in open(os.path.join(HERE, "notes"), newline="\n"))

        def jobs():
            for name in want:
                if o.low <= int(name) <= o.high and (o.only is None or want[name].split()[0] == o.only):
                    yield name, None, (want[name], want_program[name])

    def one(job):
        name, data, wanted = job
        text = None
        if wanted is None:
            r = checker.check(data)
            w = "OK" if r[0] == "OK" else f"F{r[1]} {r[2]}"
            wp = w if w != "OK" or checker.runs(r[1]) else "F0 -"
            if w == "OK":
                text = checker.printed(r[1])
        else:
            w, wp = wanted
            data = open(os.path.join(HERE, "files", name + ".toml"), "rb").read()
            if w == "OK":
                text = open(os.path.join(HERE, "printed", name + ".toml"), newline="").read()
        return name, w, wp, judge(o.command, data, w, wp, text, o.timeout)

    count = differ = slow = 0
    with ThreadPoolExecutor(o.jobs) as pool:
        runs = list(jobs())
        for name, w, wp, got in pool.map(one, runs):
            count += 1
            if got == "slow":
                slow += 1
                print(f"SLOW {name}: no answer in {o.timeout} seconds (expected {w})", flush=True)
            elif got is not None:
                differ += 1
                note = notes.get(name, "") if o.cuts is None else ""
                print(f"DIFFERS {name}: expected {w if w == wp else w + ' or ' + wp}, got {got}   [{short(note)}]", flush=True)
    print(f"{count} files run, {differ} differ, {slow} slow")
    sys.exit(1 if differ or slow else 0)


main()
