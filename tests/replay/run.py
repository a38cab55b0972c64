#!/usr/bin/env python3
"""The learners' histories, run by the replay programs.

Each examples/histories/NAME.txt is a history (docs/REPLAY.md), and NAME.out beside it is what the program must print; those of the folder two_sheets are for the program on two sheets. `make programs`
builds them.
"""
import pathlib
import subprocess
import sys

ROOT = pathlib.Path(__file__).resolve().parent.parent.parent
PROGRAMS = ROOT / "target" / "bin"
HISTORIES = ROOT / "examples" / "histories"


def differs(program, history):
    """Whether the program prints something else than the history's file, with the first line that differs."""
    wanted = history.with_suffix(".out").read_bytes().split(b"\n")
    done = subprocess.run([PROGRAMS / program], input=history.read_bytes(), capture_output=True, check=True)
    printed = done.stdout.split(b"\n")
    if printed == wanted:
        return False
    at = next((i for i, (a, b) in enumerate(zip(printed, wanted)) if a != b), min(len(printed), len(wanted)))
    print(f"{history.name}: line {at + 1} of what is printed differs: {printed[at:at + 1]} instead of {wanted[at:at + 1]}")
    return True


def main():
    histories = [("replay", history) for history in sorted(HISTORIES.glob("*.txt"))]
    histories += [("replay_two", history) for history in sorted(HISTORIES.glob("two_sheets/*.txt"))]
    for program in "replay", "replay_two":
        if not (PROGRAMS / program).exists():
            sys.exit(f"no target/bin/{program}: `make programs` builds it")
    differences = sum(differs(program, history) for program, history in histories)
    print(f"{len(histories)} histories, {differences} differences")
    sys.exit(1 if differences or not histories else 0)


main()
