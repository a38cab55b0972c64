#!/usr/bin/env python3
"""The walk of client.c in Python, over the shared library: python3 examples/client.py target/shared/librapyheo.so"""
import ctypes
import sys

U32 = ctypes.c_uint32


class Entry(ctypes.Structure):
    _fields_ = [("key", U32 * 5), ("version", U32), ("txid", U32), ("seen", U32 * 2), ("absent", U32), ("wrote", U32), ("put", U32 * 2)]


class Transaction(ctypes.Structure):
    _fields_ = [(name, U32) for name in ("number", "serializable", "phase", "place", "verdict", "count")] + [("entries", Entry * 8)]


library = ctypes.CDLL(sys.argv[1] if len(sys.argv) > 1 else "target/shared/librapyheo.so")
BEGIN, BEGIN_CHECKED, READ, PUT, ADVANCE, ABORT, CLOSE = range(7)
PHASES = ("open", "prepare", "check", "decide", "withdraw", "finish", "undo", "done")
VERDICTS = ("none", "committed", "aborted")
VISITS = ("stays", "forward", "back", "again")
# those of the table that the walk meets
REFUSALS = {
    4: "the call is not for this phase, or the own coordinator line forbids the step",
    6: "no line has the key",
    7: "a put column is over 99999999",
    8: "every number of the coordinator sheet is issued",
    10: "the key is not held: read it before the put",
    12: "the line is undecided, and not every line of its owner has expired",
}
KEYS = {"stock": (1, 1, 1, 1, 1), "account": (2, 1, 1, 1, 1), "note": (2, 1, 1, 1, 2), "nothing": (2, 1, 1, 1, 3)}

RECORDS = b"""\
 1  1  1     1     1 COMMITTED     1   0      500      250         -     0   0        0        0          0
 2  1  1     1     1 COMMITTED     4   0      900        0         -     0   0        0        0          0
 2  1  1     1     2    ABSENT     0   0        0        0         -     0   0        0        0          0
"""
COORDINATOR = b"   0 SSSSSSSSS\n" + b"".join(b"%4d         -\n" % number for number in range(1, 8))

# the sheets and the list, which only calls change
records = (ctypes.c_uint8 * len(RECORDS)).from_buffer_copy(RECORDS)
coordinator = (ctypes.c_uint8 * len(COORDINATOR)).from_buffer_copy(COORDINATOR)
orders = (Transaction * 2)()


def lent(array):
    """A slice: where it begins, and its length. A library loaded by ctypes knows no types, so that the length needs its own."""
    return array, ctypes.c_size_t(len(array))


def written(before):
    """What differs from the copies of both sheets."""
    lines = (U32 * 2)()
    wrote = library.rapyheo_written(*lent(before[0]), *lent(records), *lent(before[1]), *lent(coordinator), *lent(lines))
    if wrote == 0:
        return "; wrote nothing\n"
    if wrote == 1:
        return "; wrote the coordinator sheet\n" + bytes(coordinator).decode()
    first, end = lines[0], lines[0] + lines[1]
    return f"; wrote lines {first} to {end - 1}\n" + bytes(records)[108 * first : 108 * end].decode()


def report(words, call, answered):
    """Makes a call, and prints its answer, or the refusal, and what it wrote."""
    before = type(records)(*records), type(coordinator)(*coordinator)
    answer = call()
    refusal = answer - 1000
    text = f"refused {refusal}, {REFUSALS[refusal]}" if answer > 1000 else answered(answer)
    print(f"{words}: {text}{written(before)}", end="")


def ask(words, answered, place, call, key=(0,) * 5, columns=(0, 0), clock=0, limit=0):
    place = ctypes.c_size_t(place)
    numbers = [U32(n) for n in (call, *key, *columns, clock, limit)]
    report(words, lambda: library.rapyheo_call_at(*lent(orders), place, *lent(records), *lent(coordinator), *numbers), answered)


def begin(place, checked=False):
    words = "begin checked" if checked else "begin"
    ask(words, lambda _: f"number {orders[place].number}", place, BEGIN_CHECKED if checked else BEGIN)


def held(place, key):
    """The columns of a key that the order holds, as last put, else as read."""
    order = orders[place]
    entry = next(e for e in order.entries[: order.count] if tuple(e.key) == key)
    return "columns {} {}".format(*(entry.put if entry.wrote else entry.seen))


def read(place, name, clock):
    key = KEYS[name]
    ask(f"read {name} at {clock}", lambda n: ("absent", held(place, key) if n == 1 else "", "again")[n], place, READ, key, clock=clock)


def put(place, name, *columns):
    ask("put {} {} {}".format(name, *columns), lambda _: "held", place, PUT, KEYS[name], columns)


def step(place):
    order = orders[place]
    return f"{PHASES[order.phase]}, place {order.place}, verdict {VERDICTS[order.verdict]}"


def advance(place, clock):
    ask(f"advance at {clock}", lambda _: step(place), place, ADVANCE, clock=clock)


def close(place, clock, limit):
    ask(f"close at {clock}, limit {limit}", lambda writes: f"{writes} written, {step(place)}", place, CLOSE, clock=clock, limit=limit)


def abort(place):
    ask("abort", lambda _: step(place), place, ABORT)


def visit(name, clock):
    numbers = [U32(n) for n in (*KEYS[name], clock)]
    report(f"visit {name} at {clock}", lambda: library.rapyheo_visit(*lent(records), *lent(coordinator), *numbers), VISITS.__getitem__)


def die():
    for place in range(len(orders)):
        orders[place] = Transaction()
    print("the client dies, and its list with it")


def show():
    print(f"version {library.rapyheo_version()} with header 30000, check {library.rapyheo_check(*lent(records), *lent(coordinator))}")
    print((bytes(coordinator) + bytes(records)).decode(), end="")


def two_phases():
    print("\nan order over two stores")
    begin(0)
    for name in ("stock", "account", "note"):
        read(0, name, 1000)
    put(0, "stock", 499, 250)
    put(0, "account", 950, 0)
    put(0, "note", 1, 1)
    for clock in range(1001, 1007):
        advance(0, clock)


def one_phase():
    print("\nan order over one store")
    begin(0)
    read(0, "account", 2000)
    put(0, "account", 1000, 0)
    read(0, "account", 2000)
    advance(0, 2001)


def write_by_write():
    print("\nan order over two stores, closed write by write")
    begin(0)
    read(0, "stock", 2500)
    read(0, "account", 2500)
    put(0, "stock", 498, 250)
    put(0, "account", 1050, 0)
    for clock in range(2501, 2506):
        close(0, clock, 1)


def given_up():
    print("\nrefused calls, and an order that is given up")
    begin(1)
    put(1, "stock", 1, 1)
    read(1, "nothing", 3000)
    read(1, "stock", 3000)
    put(1, "stock", 100000000, 0)
    put(1, "stock", 497, 250)
    abort(1)
    advance(1, 3001)
    advance(1, 3001)
    advance(1, 3002)


def dies_undecided():
    print("\na client that dies between its two prepares")
    begin(0)
    read(0, "stock", 4000)
    read(0, "account", 4000)
    put(0, "stock", 497, 250)
    put(0, "account", 1100, 0)
    advance(0, 4001)
    advance(0, 4002)
    die()
    for clock in (19001, 19002, 19003):
        visit("stock", clock)
    visit("account", 19004)


def dies_decided():
    print("\na client that dies after its decision")
    begin(0, checked=True)
    for name in ("stock", "note", "account"):
        read(0, name, 20000)
    put(0, "stock", 497, 250)
    put(0, "account", 1100, 0)
    for clock in range(20001, 20006):
        advance(0, clock)
    die()
    visit("account", 20010)
    begin(0)
    read(0, "stock", 20011)
    advance(0, 20012)
    begin(0)


def as_numbers():
    rows, decisions = (U32 * 48)(), (U32 * 17)()
    line = library.rapyheo_lookup(*lent(records), *map(U32, KEYS["note"]))
    answers = library.rapyheo_read_records(*lent(records), *lent(rows)), library.rapyheo_read_coordinator(*lent(coordinator), *lent(decisions))
    print("\nsheets as numbers\nnote is line {}, both sheets to numbers: {} {}".format(line, *answers))
    print("", *rows[16 * line : 16 * line + 16])
    print("", *decisions)
    others = type(records)(), type(coordinator)()
    answers = library.rapyheo_write_records(*lent(rows), *lent(others[0])), library.rapyheo_write_coordinator(*lent(decisions), *lent(others[1]))
    print("numbers to other sheets: {} {}".format(*answers) + written(others), end="")


print("at first")
show()
two_phases()
one_phase()
write_by_write()
given_up()
dies_undecided()
dies_decided()
as_numbers()
print("\nat the end")
show()
