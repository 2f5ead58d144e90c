#!/usr/bin/env python3
"""Runs a program on random networks, and holds what it prints against the exploration of this folder.

    compare.py [--first K] [--small-budget] [--program PATH] [--keep FOLDER] [--timeout S] N SEED [COMMAND ..]

N networks are made, from number K on. Where all conditions of a network are small there is one right report, and text and status are
compared with it; where not, and with --small-budget, they are judged by the definitions. Each failure that is printed as reached is
replayed by the program, on its inputs: the run must have the traces and outcomes of its pick. Without --program the command is
`./netsym explore --mapping cob` at the top of the repository; PATH is a built program. What differs is kept in FOLDER, which should be
outside of the repository: the network, what was printed, and what is wrong with it. A network that takes too much work here is made
and passed over. The exit status is 0 where nothing differs.
"""

import argparse
import collections
import os
import random
import subprocess
import sys
import tempfile

import random_networks
import replays
from judge import Complaint, Judge
from terms import TooLong

TOP = os.path.join(os.path.dirname(os.path.abspath(__file__)), "..", "..")
WORK = 400000


def run(command, text, timeout):
    """What a command prints on a text, and its status; a status of None stands for no end in time."""
    try:
        ended = subprocess.run(command, input=text.encode(), stdout=subprocess.PIPE, stderr=subprocess.PIPE, timeout=timeout, check=False)
    except subprocess.TimeoutExpired:
        return "", None
    return ended.stdout.decode("utf-8", "replace"), ended.returncode


def compared(judge, text, status, small_budget):
    """What is wrong with an answer, or None."""
    if status is None:
        return "no answer in time"
    try:
        if small_budget or not judge.is_exact():
            judge.judge(text, status)
        elif status != judge.answer.status or text != judge.answer.text and text not in judge.answer.others:
            raise Complaint("status %d and the text\n%s" % (judge.answer.status, judge.answer.text))
    except Complaint as complaint:
        return str(complaint)
    return None


def kinds_of(judge, text):
    """Words on what a network and the answer on it show."""
    kinds = ["one right answer" if judge.is_exact() else "judged by the definitions"]
    if text.startswith("netsym: limit"):
        kinds.append(" ".join(text.split()[1:3]))
    for word in ("assert@", "bounds@", "fuel@", "halted", "reached dstate", "nowhere"):
        if word in text:
            kinds.append("with " + word)
    if any(line.startswith("state ") and " open " in line for line in text.split("\n")):
        kinds.append("with an open state")
    if any(line.startswith("failure ") and line.endswith(" open") for line in text.split("\n")):
        kinds.append("with an open failure")
    if text.count("\ndstate ") > 1:
        kinds.append("with more than one dstate")
    return kinds


def main():
    """Makes the networks and compares."""
    words = argparse.ArgumentParser(description="Runs a program on random networks.")
    words.add_argument("count", type=int)
    words.add_argument("seed", type=int)
    words.add_argument("--first", type=int, default=0)
    words.add_argument("--small-budget", action="store_true")
    words.add_argument("--program")
    words.add_argument("--keep", default=os.path.join(tempfile.gettempdir(), "netsym-differing"))
    words.add_argument("--timeout", type=float, default=60)
    words.add_argument("command", nargs=argparse.REMAINDER)
    chosen = words.parse_args()
    program = chosen.program or os.path.join(TOP, "netsym")
    command = chosen.command or [program, "explore", "--mapping", "cob"]
    count = differing = passed_over = replayed = 0
    kinds = collections.Counter()
    for number in range(chosen.first, chosen.first + chosen.count):
        network = random_networks.network_text(random.Random("%d %d" % (chosen.seed, number)), chosen.small_budget)
        try:
            judge = Judge(network, WORK)
            text, status = run(command, network, chosen.timeout)
            wrong = compared(judge, text, status, chosen.small_budget)
            if wrong is None and not chosen.command:
                runs, wrong = replays.wrong_replays(program, network, text, chosen.timeout)
                replayed += runs
        except TooLong:
            passed_over += 1
            continue
        count += 1
        kinds.update(kinds_of(judge, text))
        if wrong is not None:
            differing += 1
            name = os.path.join(chosen.keep, "%d-%05d" % (chosen.seed, number))
            os.makedirs(chosen.keep, exist_ok=True)
            for ending, held in ((".toml", network), (".printed", text), (".wrong", wrong)):
                with open(name + ending, "w", encoding="utf-8") as file:
                    file.write(held)
            print("DIFFERS: %s.toml, status %s: %s" % (name, status, wrong.split("\n")[0]), flush=True)
    for kind, times in sorted(kinds.items()):
        print("%6d %s" % (times, kind))
    print("%d networks run, %d failures replayed, %d differ, %d passed over" % (count, replayed, differing, passed_over))
    return 1 if differing else 0


if __name__ == "__main__":
    sys.exit(main())
