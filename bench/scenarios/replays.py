"""Replays each failure that a report prints as reached, on its inputs, and says where the run is another one than the report says."""

import re
import subprocess

REACHED = re.compile(r"failure (\d+) reached dstate \d+ pick ([\d ]+) inputs (.*)")
STATE = re.compile(r"state (\d+) node \d+ trace (\S+) outcome (\S+) .*")
END = re.compile(r"node \d+ trace (\S+) outcome (\S+)")
FOUND = 1


def input_entries(inputs):
    """The entries of a file for the inputs of a failure line."""
    if inputs == "-":
        return ""
    entries = []
    for given in inputs.split(" "):
        node, index, value = re.fullmatch(r"(\d+)\.(\d+)=(\d+)", given).groups()
        entries.append("[[input]]\nnode = %s\nindex = %s\nvalue = %s\n" % (node, index, value))
    return "".join(entries)


def without_inputs(network):
    """The file without its own inputs, which stand at its end."""
    return network.split("[[input]]")[0]


def wrong_replays(program, network, report, timeout):
    """How many failures of the report were replayed, and what is wrong with the first run that differs, or None."""
    lines = report.split("\n")
    states = {found[1]: (found[2], found[3]) for found in map(STATE.fullmatch, lines) if found}
    count = 0
    for found in filter(None, map(REACHED.fullmatch, lines)):
        file = without_inputs(network) + input_entries(found[3])
        ended = subprocess.run([program, "replay"], input=file.encode(), stdout=subprocess.PIPE, timeout=timeout, check=False)
        text = ended.stdout.decode("utf-8", "replace")
        ends = [end.groups() for end in map(END.fullmatch, text.split("\n")) if end]
        count += 1
        if ended.returncode != FOUND or ends != [states[number] for number in found[2].split(" ")]:
            return count, "the run of failure %s:\n%s" % (found[1], text)
    return count, None
