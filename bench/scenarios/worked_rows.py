#!/usr/bin/env python3
"""Runs explore.py's exploration on the worked files of the program's own tests.

    worked_rows.py

The table of the tests is crates/netsym/src/rows.rt. Rows of files that are refused for a fault are passed over.
"""

import os
import re
import sys

from compare import compared
from judge import Judge

HERE = os.path.dirname(os.path.abspath(__file__))
TABLE = os.path.join(HERE, "..", "..", "crates", "netsym", "src", "rows.rt")
STATUSES = {"Clean": 0, "Found": 1, "Refused": 3, "Limit": 7, "Open": 8}

STRING = r'"(?:[^"\\]|\\.)*"'
VALUE = r'(?:%s|[A-Z_]+)' % STRING
CONSTANT = re.compile(r"const ([A-Z_]+): &str = (%s);" % STRING, re.DOTALL)
ROW = re.compile(r"Row \{\s*name: (?P<name>%s),\s*file: (?P<file>%s),\s*change: (?:AS_IT_STANDS|\(\s*(?P<old>%s),\s*(?P<new>%s),?\s*\)),"
                 r"\s*status: Status::(?P<status>\w+),\s*text: (?P<text>%s),\s*\}" % ((VALUE,) * 5), re.DOTALL)


def unquoted(text):
    """What a string of the table says."""
    return re.sub(r"\\(.)", lambda found: {"n": "\n", "t": "\t"}.get(found[1], found[1]), text[1:-1], flags=re.DOTALL)


def rows_of_the_tests():
    """Each row of the table: name, file, text and status."""
    table = open(TABLE, encoding="utf-8").read()
    constants = {found[1]: unquoted(found[2]) for found in CONSTANT.finditer(table)}

    def value(text):
        return unquoted(text) if text.startswith('"') else constants[text]

    for found in ROW.finditer(table):
        file = value(found["file"])
        if found["old"] is not None:
            file = file.replace(value(found["old"]), value(found["new"]))
        yield value(found["name"]), file, value(found["text"]), STATUSES[found["status"]]


def main():
    """Runs all rows."""
    count = differing = passed_over = 0
    for name, file, text, status in rows_of_the_tests():
        if text.startswith(("netsym: refused", "replay")):
            passed_over += 1
            continue
        count += 1
        wrong = compared(Judge(file, None), text, status, False)
        if wrong is not None:
            differing += 1
            print("DIFFERS:", name)
            print(wrong)
    print("%d rows run, %d differ, %d passed over" % (count, differing, passed_over))
    return 1 if differing else 0


if __name__ == "__main__":
    sys.exit(main())
