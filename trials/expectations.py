"""Prints which expectations a report does not meet, as a second emulator finds it, and ends with the status that the program has.

    python3 -B trials/expectations.py EXPECTATIONS REPORT [--endings]

REPORT is a file with what `l4run run FILE --report`, or `l4run replay`, prints. Status 0 where all hold (3 where the report ends spent), 4 where one does not,
1 where a line of EXPECTATIONS is faulty. With `--endings` its lines are judged as those for `l4run endings`.
"""

import argparse
import pathlib
import sys

from second import expectations

MET, FAULT, SPENT, UNMET = 0, 1, 3, 4


def status(told, report):
    if told:
        return UNMET
    return SPENT if report.endswith("ending spent\n") else MET


def main(arguments):
    reader = argparse.ArgumentParser()
    reader.add_argument("expectations", type=pathlib.Path)
    reader.add_argument("report", type=pathlib.Path)
    reader.add_argument("--endings", action="store_true")
    asked = reader.parse_args(arguments)
    report = asked.report.read_text()
    try:
        expected = expectations.read(asked.expectations.read_bytes(), asked.endings)
    except expectations.Fault as fault:
        sys.stderr.write(f"l4run: {fault}\n")
        return FAULT
    told = expectations.unmet_text(expected, report)
    sys.stderr.write(told)
    return status(told, report)


if __name__ == "__main__":
    sys.exit(main(sys.argv[1:]))
