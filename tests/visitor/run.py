#!/usr/bin/env python3
"""Runs of the visiting program, each held to stored output.

`cases/NAME.in` and `cases/NAME.out` are inputs and outputs. The outputs come from the separate implementation (`cargo run --release --bin visitor` in
reference/) and were read against the paper. Larger inputs are made here: the refusals beside them are written from the paper, and an accepted one has the SHA-256
of that implementation's output.
Run from the repository's root, after `make programs`; `--quiet` prints differences only.
"""
import hashlib
import pathlib
import subprocess
import sys

PROGRAM = pathlib.Path("target/bin/visitor")
CASES = pathlib.Path(__file__).resolve().parent / "cases"
FIRST, SECOND = b"REFUSED  1\n", b"REFUSED  2\n"


def head(lines, decisions, clock):
    return b"%4d%4d%11d\n" % (lines, decisions, clock)


def coordinator(decisions, issued):
    """Numbers up to the issued count are COMMITTED, ABORTED and undecided by turns."""
    words = (b"COMMITTED", b"ABORTED", b"-")
    lines = [b"%4d SPTNRSPTN\n" % issued]
    for k in range(1, decisions + 1):
        word = words[k % 3] if k <= issued else b"-"
        lines.append(b"%4d%10s\n" % (k, word))
    return b"".join(lines)


def records(lines, issued):
    """Lines absent, committed, and prepared by every number in turn, over nothing and over a version, at clocks that have and have not expired."""
    text = []
    for i in range(lines):
        txid, version = i % issued + 1, i % 7
        key = (b"%2d%3d%3d%6d%6d" % (1 + i // 100, 1 + i // 50 % 2, 7, i // 10, i)).ljust(20)
        clock = 20000 - (14999, 15000, 3)[i % 3]
        if i % 5 == 0:
            fields = (b"ABSENT", 0, 0, 0, 0, b"-", 0, 0, 0, 0, 0)
        elif i % 5 == 1:
            fields = (b"COMMITTED", version + 1, txid, i, 2 * i, b"-", 0, 0, 0, 0, 0)
        elif version == 0:
            fields = (b"PREPARED", 1, txid, i, 5, b"ABSENT", 0, 0, 0, 0, clock)
        else:
            fields = (b"PREPARED", version + 1, txid, i, 5, b"COMMITTED", version, txid - 1, 99999999, 4, clock)
        text.append(key + b"%10s%6d%4d%9d%9d%10s%6d%4d%9d%9d%11d\n" % fields)
    return b"".join(text)


def without_before_state(sheet):
    """The same lines of 98 bytes, as they were before the field came."""
    lines = sheet.split(b"\n")[:-1]
    return b"".join(line[:58] + line[68:] + b"\n" for line in lines)


def sheets(lines, decisions, issued=None):
    issued = min(decisions, 999) if issued is None else issued
    return head(lines, decisions, 20000) + coordinator(decisions, issued) + records(lines, max(issued, 1))


# name, input, the whole output or its digest
LARGE = [
    ("500 record lines", sheets(500, 30), "b0f5ce026f297192981285bc836d408bbac67641fe530a7ffef5d47363c5e178"),
    ("501 record lines", sheets(501, 30), FIRST),
    ("54 lines of 98 bytes, as long as 49 record lines", head(49, 30, 20000) + coordinator(30, 30) + without_before_state(records(54, 30)), FIRST),
    ("999 coordinator lines", sheets(6, 999), "7964f5cc903370de6ad5e47ba96dbbe4bd010fe2a40855b9e45e599d1c630c88"),
    ("both at their largest", sheets(500, 999), "03028cc405ad32be1e45c8bf238fee21fc724057507d720d82332b8a80c64de0"),
    ("1,000 coordinator lines", sheets(6, 1000), SECOND),
    ("1,500 coordinator lines", sheets(6, 1500), SECOND),
    ("9,999 coordinator lines and 500 record lines", sheets(500, 9999), SECOND),
    ("9,999 coordinator lines and 501 record lines", sheets(501, 9999), FIRST),
    ("9,999 coordinator lines, 500 record lines and a byte", sheets(500, 9999) + b"\n", FIRST),
    ("9,999 of both", sheets(9999, 9999), FIRST),
    ("longer than any numbers of lines", b"7" * 2_000_000, FIRST),
]


def stored():
    for path in sorted(CASES.glob("*.in")):
        yield path.stem, path.read_bytes(), path.with_suffix(".out").read_bytes()


def agrees(output, expected):
    if isinstance(expected, str):
        return hashlib.sha256(output).hexdigest() == expected
    return output == expected


def main():
    if not PROGRAM.exists():
        sys.exit(f"no {PROGRAM}: build it first with `make programs`")
    runs = differences = 0
    for name, text, expected in [*stored(), *LARGE]:
        run = subprocess.run([PROGRAM], input=text, capture_output=True)
        runs += 1
        if run.returncode != 0 or not agrees(run.stdout, expected):
            differences += 1
            print(f"{name}: status {run.returncode}, output begins {run.stdout[:60]!r}")
    if differences or "--quiet" not in sys.argv:
        print(f"{runs} runs, {differences} differences")
    sys.exit(1 if differences else 0)


if __name__ == "__main__":
    main()
