#!/usr/bin/env python3
"""The visiting program on visit.txt, before and after side by side: the blanks between fields are drawn together, and what changed is marked.

Number 1 is COMMITTED and its line is rolled forward; 2 is ABORTED and its line rolled back; 3 is undecided and has not expired; 4 is undecided and has
expired, so that the first pass writes ABORTED and the second rolls its line back. COMMITTED and ABSENT lines stay. Run from the repository's root.
"""
import pathlib
import subprocess

text = (pathlib.Path(__file__).resolve().parent / "visit.txt").read_text()
after = subprocess.run(["target/bin/visitor"], input=text, capture_output=True, text=True, check=True).stdout
first, *before = text.splitlines()
print("record lines, coordinator lines, clock:", *first.split(), "\n")
for old, new in zip(before, after.splitlines(), strict=True):
    mark = " " if old == new else "*"
    print(f"{' '.join(old.split()):<60}{mark} {' '.join(new.split())}")
