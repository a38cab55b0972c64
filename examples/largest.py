#!/usr/bin/env python3
"""The largest input of the visiting program: 500 record lines, 999 coordinator lines and a clock at which what is prepared has expired. Of each four lines
one is COMMITTED, and one each is PREPARED under a committed, an aborted and an undecided number."""
RECORDS, NUMBERS, CLOCK = 500, 999, 20000
OWNERS = [None, 2, 3, 4]
DECISIONS = {2: "COMMITTED", 3: "ABORTED"}


def figures(*fields):
    return "".join(str(value).rjust(width) for width, value in fields)


def image(version, txid, column1, column2):
    return figures((6, version), (4, txid), (9, column1), (9, column2))


def record(i):
    key = figures((2, 1), (3, 1), (3, 1), (6, 0), (6, i))
    owner = OWNERS[i % 4]
    if owner is None:
        return key + "COMMITTED".rjust(10) + image(3, 1, 600, 300) + "-".rjust(10) + image(0, 0, 0, 0) + figures((11, 0))
    return key + "PREPARED".rjust(10) + image(4, owner, 700, 350) + "COMMITTED".rjust(10) + image(3, 1, 600, 300) + figures((11, 1000))


print(figures((4, RECORDS), (4, NUMBERS), (11, CLOCK)))
print(figures((4, NUMBERS - 1)) + " SSSSSSSSS")
for number in range(1, NUMBERS + 1):
    print(figures((4, number)) + DECISIONS.get(number, "-").rjust(10))
for i in range(RECORDS):
    print(record(i))
