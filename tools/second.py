#!/usr/bin/env python3
"""A second planner for drawings of a caption timing unit, written on its own.

    second.py selftest     try the planner against known answers and brute force
    second.py list         read a drawing on standard input, print its listing
    second.py rehearse     read a drawing and calls on standard input, print the answers
    second.py cases DIR    write the stored cases into DIR
    second.py runs DIR     write the stored runs into DIR
"""

import sys

from second_cases import write_cases
from second_checks import selftest
from second_faulty import FAULTY
from second_planner import answer
from second_rehearsal import rehearsal
from second_sound import SOUND
from second_trials import write_runs


def main(words):
    """Do what the command line asks."""
    if words == ["selftest"]:
        selftest()
    elif words == ["list"]:
        sys.stdout.buffer.write(answer(sys.stdin.buffer.read()))
    elif words == ["rehearse"]:
        sys.stdout.buffer.write(rehearsal(sys.stdin.buffer.read()))
    elif len(words) == 2 and words[0] == "cases":
        write_cases(words[1])
    elif len(words) == 2 and words[0] == "runs":
        write_runs(words[1], SOUND + FAULTY)
    else:
        raise SystemExit(__doc__.strip())


if __name__ == "__main__":
    main(sys.argv[1:])
