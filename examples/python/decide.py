#!/usr/bin/env python3
"""Decides a list of three lines and explains the answer, as examples/decide.c does. With an
argument the last line asks for more than the others allow."""

import sys

import utvpi

CAUSE, BRAKE = range(2)


def main() -> int:
    latest = 40 if len(sys.argv) > 1 else 45
    answer = utvpi.Library().decide(2, [
        utvpi.Line(1, CAUSE, -1, BRAKE, -1, 0x18DA10F1),  # the brake is after its cause
        utvpi.Line(-1, CAUSE, 0, 0, -40),  # the cause is at 40 or later
        utvpi.Line(1, BRAKE, 0, 0, latest),  # the brake is at 45 or before; or at 40
    ])
    if isinstance(answer, utvpi.Yes):
        least, greatest = answer.bounds[BRAKE]
        print(f"Yes: the cause at {answer.model[CAUSE]} and the brake at {answer.model[BRAKE]}, "
              f"which can be from {least} to {greatest}.")
        return 0
    for line, identifier in zip(answer.lines(), answer.identifiers):
        print(f"No: line {line}, of message 0x{identifier:08X}, is part of the clash.")
    return 1


if __name__ == "__main__":
    sys.exit(main())
