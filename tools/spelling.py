#!/usr/bin/env python3
"""Spells the definitions and laws that the crates declare as today's Rattle does: words in snake case, types and modules in camel case.

usage: python3 tools/spelling.py, once, at the top, over what the kit's own script for an older repository left.

A dash stays where it joins the names of two definitions (`length-records`); else it becomes an underscore (`allow_first`). Functions of src/, strings, inputs
and outputs keep their names. Names that would fall together are printed, and nothing is written. Rust's text changes in clauses and imports alone, and prose
only between backticks.
"""
import collections
import pathlib
import re
import sys

ROOT = pathlib.Path(__file__).resolve().parent.parent
NAME = r'[^\s(){}\[\].;,@"«»`]+'
DECLARED = re.compile(rf"^ *((?:(?:abbrev|unfoldable|pub) )*)(record |data )?({NAME})(?: *[({{][^\n]*?[)}}])* :(?: |$)", re.M)
# the kit's words that laws are named after, beside those of the crates
WORDS = set("length drop take map append get_or set replicate all any filter count sum true false and or not nil eqb leb ltb".split())
# names whose last word is no word of its own
SPECIAL = {
    "List·getD-map": "get_or-map",
    "List·getD-eq-default": "get_or-eq_default",
    "Option·none-ne-some": "none-ne-some",
    "Option·some-injective": "some-injective",
    "needs": "rules",
    # names that would fall on another's
    "in-range": "is_in_range",
    "Run-as-advances": "RunAsByteAdvances",
    "lines-told": "only_lines_told",
}
# and those of one crate alone
OF_CRATE = {
    ("record_check", "rules"): "all_rules",
    ("recovery", "by-decision"): "by_its_decision",
    ("serial", "by-decision"): "by_its_decision",
    ("sweep", "coordinator-bytes"): "coordinator_length",
    ("sweep", "record-bytes"): "records_length",
    ("call_laws", "written-lines"): "lines_of_write",
}


def words_of(name):
    """The words of a name, in snake case, those that a dash joins apart."""
    name = re.sub(r"getD|get_d", "get_or", name)
    snake = lambda part: re.sub(r"(?<=[a-z0-9])[A-Z]", lambda m: "_" + m[0].lower(), part)
    return [snake(part) if part[:1].islower() else part for part in name.replace("·", "-").split("-")]


def needs_spelling(name):
    return bool(re.search(r"[a-z0-9][A-Z]", name) if name[:1].islower() else "-" in name and name[:1].isupper()) or "-" in name or "·" in name or "get_d" in name


def joined(words, known):
    """The words with a dash between the names of definitions where they are all that, and else with underscores."""
    best = {0: []}
    for end in range(1, len(words) + 1):
        for start in range(end):
            piece = "_".join(words[start:end])
            if start in best and (piece in known or (piece.isdigit() and start)) and (end not in best or len(best[start]) + 1 < len(best[end])):
                best[end] = best[start] + [piece]
    return "-".join(best[len(words)]) if len(words) in best else "_".join(words)


def spelled(name, known):
    if name in SPECIAL:
        return SPECIAL[name]
    if name[:1].isupper():
        return "".join(part[:1].upper() + part[1:] for part in name.split("-"))
    return joined(words_of(name), known)


def antt_files():
    return sorted(path for path in ROOT.glob("crates/*/*/**/*.antt") if path.parts[len(ROOT.parts) + 2] in ("specs", "proofs"))


def declared():
    """What the crates declare in specs/, name by name: definition, field or law."""
    kinds = collections.defaultdict(set)
    for path in antt_files():
        if path.parts[len(ROOT.parts) + 2] != "specs":
            continue
        fields = None
        for line in path.read_text().split("\n"):
            depth = len(line) - len(line.lstrip())
            if line.strip() and fields is not None and depth <= fields:
                fields = None
            m = DECLARED.match(line)
            if m and (m[2] or "abbrev" in m[1] or "unfoldable" in m[1]):
                kinds[m[3]].add("definition")
            elif m:
                kinds[m[3]].add("field" if fields is not None else "law")
            if re.match(r" *(pub )?(record|data) ", line):
                fields = depth
    return kinds


PARTS = re.compile(rf'(?P<comment>(?:^|(?<=\s))--(?: .*)?$)|(?P<string>"(?:[^"\\]|\\.)*")|(?P<name>{NAME})', re.M)


def in_code(text, turn):
    def one(m):
        if m["comment"]:
            return in_prose(m[0], turn)
        return m[0] if m["string"] else turn(m[0])

    return PARTS.sub(one, text)


def in_prose(text, turn):
    """Between backticks, and words that only code has: camel case behind a small letter."""
    text = re.sub(r"`[^`\n]+`", lambda m: re.sub(NAME, lambda n: turn(n[0]), m[0]), text)
    return re.sub(r"(?<![\w`./-])[a-z]+[A-Z]\w*(?![\w`(/-])", lambda m: turn(m[0]), text)


CLAUSE = re.compile(r"^(?P<clause>(?:pub )?ghost .*|\s*(?:requires|ensures|ghost)\b.*)$|(?P<comment>//.*)$", re.M)


def in_rust(text, turn):
    return CLAUSE.sub(lambda m: in_code(m[0], turn) if m["clause"] else in_prose(m[0], turn), text)


def in_edit(text, turn):
    lines = []
    for line in text.split("\n"):
        key, mark, value = line.partition(": ")
        if mark and key in ("old", "new", "every", "refused"):
            lines.append(f"{key}: {in_code(value, turn)}")
        else:
            lines.append(in_prose(line, turn) if line.startswith("#") else line)
    return "\n".join(lines)


def main():
    kinds = declared()
    names = set(kinds)
    definitions = set(WORDS) | {"_".join(words_of(name)) for name in names if "definition" in kinds[name]}
    new = {name: spelled(name, definitions) for name in names if needs_spelling(name)}
    # fields and constructors have no dash at all
    new.update({name: it.replace("-", "_") for name, it in new.items() if "field" in kinds[name]})
    # a law that would have a definition's or constructor's name gets an ending, as in the kit
    others = {new.get(name, name) for name in names if "law" not in kinds[name]}
    for name in names:
        if "law" in kinds[name] and "definition" not in kinds[name] and new.get(name, name) in others:
            new[name] = new.get(name, name) + "_lem"
    new.update(SPECIAL)
    new = {old: it for old, it in new.items() if old != it}
    # names that fall together, with one another or with one that stays
    into = collections.defaultdict(set)
    for old, it in new.items():
        into[it].add(old)
    for name in names:
        if name not in new and name in into:
            into[name].add(name)
    together = {it: olds for it, olds in into.items() if len(olds) > 1}
    for it, olds in sorted(together.items()):
        print(f"fall together: {it}: {' '.join(sorted(olds))}")
    used = collections.defaultdict(set)
    for path in antt_files():
        for m in PARTS.finditer(path.read_text()):
            if m["name"] and m["name"] in into and m["name"] not in names:
                used[m["name"]].add(str(path.relative_to(ROOT)))
    for it, paths in sorted(used.items()):
        print(f"stands already: {it} ({' '.join(sorted(into[it]))}): {' '.join(sorted(paths)[:3])}")
    if "--dry" in sys.argv:
        for old, it in sorted(new.items()):
            print(f"{old}\t{it}")
        return
    # an edit or a page may still have a name as it was before the kit's script
    final = set(new.values()) | names
    turn = lambda name: new.get(name, name)

    def turn_older(name):
        if name in new:
            return new[name]
        it = spelled(name, definitions) if needs_spelling(name) else name
        return it if it in final else name

    def write(path, turned):
        if turned != path.read_text():
            path.write_text(turned)

    for path in antt_files():
        crate = path.parts[len(ROOT.parts) + 1]
        mine = {old: it for (owner, old), it in OF_CRATE.items() if owner == crate}
        if mine and path.parts[len(ROOT.parts) + 2] == "specs":
            write(path, in_code(path.read_text(), lambda name: mine.get(name, name)))
        write(path, in_code(path.read_text(), turn))
    for path in sorted(ROOT.glob("crates/*/src/**/*.rt")):
        write(path, in_rust(path.read_text(), turn))
    for path in sorted(ROOT.glob("crates/*/must-fail/*.edit")) + sorted(ROOT.glob("tests/wrong_definitions/*.edit")):
        write(path, in_edit(path.read_text(), turn_older))
    for path in [ROOT / "README.md", *sorted(ROOT.glob("docs/**/*.md"))]:
        write(path, in_prose(path.read_text(), turn_older))


main()
