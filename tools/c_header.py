#!/usr/bin/env python3
"""c_header ARCHIVE OUT: holds include/eallunsa.h against what it declares.

- The names: those that the header declares, those that crates/eallunsa exports, those that ARCHIVE has (by nm);
  and those that ARCHIVE asks for from outside, which are the C library's that the header tells of.
- The records and the parameters: OUT is a C file of static assertions, worked out from the Rattle sources. Each function
  has the type that its source says, and each record its size and alignment, and of each field place, width and kind.
- The refusals: the two lists of the header are the two tables of docs/REFUSALS.md, and each function's comment has the
  refusals of the call that it makes, in their order. The wrapper in Rust has the same list.
- The version in README.md and in the wrapper's Cargo.toml is that of CHANGELOG.md.

It prints what differs, a line each, and exits with 1; to the compiler of C it leaves what only that one can tell.
"""
import pathlib
import re
import subprocess
import sys

root = pathlib.Path(__file__).resolve().parent.parent
PREFIX = "eallunsa_"
SCALARS = {"u8": ("uint8_t", 1), "u16": ("uint16_t", 2), "u32": ("uint32_t", 4), "u64": ("uint64_t", 8), "usize": ("size_t", 8)}
# What may stand between an item's first attribute and the item, and between a function's head and its body.
ATTRIBUTES = r"(?:#\[[^\n]*\]\s*)*"
CLAUSES = r"(?:(?:requires|ensures)\b.*?)?"
bad = []


def same(what, got, want):
    if isinstance(want, dict):
        for key in sorted({*got, *want}):
            same(f"{what}: {key}", got.get(key), want.get(key))
    elif got != want:
        bad.append(f"{what}: {got}, and not {want}")


def same_names(what, got, want):
    for name in sorted({*got} - {*want}):
        bad.append(f"{what}: {name} is too much")
    for name in sorted({*want} - {*got}):
        bad.append(f"{what}: {name} is missing")


# ---- the sources


def rattle():
    """Records laid out as C does, of all crates; exported functions, with what they and their helpers call; constants."""
    records, functions, constants = {}, {}, {}
    for path in sorted(root.glob("crates/*/src/**/*.rt")):
        text = re.sub(r"//.*", "", path.read_text())
        for name, body in re.findall(rf"#\[repr\(C\)\]\s*{ATTRIBUTES}pub struct (\w+) \{{(.*?)\n\}}", text, re.S):
            fields = re.findall(r"pub (\w+): ([^,]+),", body)
            if records.setdefault(name, fields) != fields:
                bad.append(f"two records have the name {name}")
        for name, value in re.findall(r"const (\w+): usize = ([\w:.]+);", text):
            constants.setdefault(name, set()).add(value)
        for name, value in re.findall(r"const (\w+): Field = Field \{[^}]*widest: (\d+)", text):
            constants[f"Field::{name}.widest"] = {value}
        exported = rf'#\[unsafe\(no_mangle\)\]\s*{ATTRIBUTES}pub extern "C" fn (\w+)\((.*?)\)(?: -> (\w+))?\s*{CLAUSES}\n\{{(.*?)\n\}}'
        if path.is_relative_to(root / "crates/eallunsa"):
            for name, given, answer, body in re.findall(exported, text, re.S):
                functions[name] = (re.findall(r"(\w+): ([^,]+?)\s*(?:,|$)", given), answer, called(body, text))
    return records, functions, constants


def called(body, text):
    """The calls of a body, and of the functions of its own file that it calls."""
    found = []
    for call in re.findall(r"\b([\w:]+)\(", body):
        helper = re.search(rf"\nfn {call}\(.*?\n\{{(.*?)\n\}}", text, re.S)
        found += called(helper[1], text) if helper else [call]
    return found


def array(kind):
    """Element and length of an array type, or nothing."""
    found = re.fullmatch(r"\[(\w+); (?:\w+::)?(\w+)\]", kind)
    if not found:
        return None
    length = found[2]
    while not length.isdigit():
        (length,) = constants[length]
    return found[1], int(length)


def layout(kind):
    """Size and alignment of a type as C lays it out."""
    if kind in SCALARS:
        return SCALARS[kind][1], SCALARS[kind][1]
    if array(kind):
        element, length = array(kind)
        size, align = layout(element)
        return size * length, align
    at, most = 0, 1
    for _, field in records[kind]:
        size, align = layout(field)
        at = -(-at // align) * align + size
        most = max(most, align)
    return -(-at // most) * most, most


# ---- the header


def header():
    text = (root / "include/eallunsa.h").read_text()
    words = {}
    for comment, name in re.findall(r"/\*((?:(?!\*/).)*)\*/\n\w+ (\w+)\([^;]*\);", text, re.S):
        words[name] = re.sub(r"\s+\*?\s*", " ", comment)
    numbers = {name: int(value) for name, value in re.findall(r"(EALLUNSA_\w+) = (\d+)", text)}
    widest = {name: int(value) for name, value in re.findall(r"(EALLUNSA_PLACE_\w+) = \d+,? +/\* (\d+)", text)}
    bare = re.sub(r"/\*.*?\*/", "", text, flags=re.S)
    structs = {}
    for body, name in re.findall(r"typedef struct \{(.*?)\} (\w+);", bare, re.S):
        structs[name] = [(f, k, n) for k, f, n in re.findall(r"(\w+) (\w+)(?:\[(\w+)\])?;", body)]
    declared = {}
    for answer, name, given in re.findall(r"^(\w+) (\w+)\(([^)]*)\);", bare, re.M):
        declared[name] = (answer, [] if given == "void" else [re.sub(r"\s+", " ", p).strip() for p in given.split(",")])
    return structs, declared, words, numbers, widest


# ---- records and parameters: assertions for the compiler


def fit(where, kind, name):
    """Notes that the Rattle type `kind` is the header's `name`, and asserts its fields."""
    if kind in SCALARS:
        same(where, name, SCALARS[kind][0])
    elif kind not in fitted:
        fitted[kind] = name
        if name not in structs:
            bad.append(f"{kind}: the header has no record {name}")
            return
        size, align = layout(kind)
        said(f"sizeof({name}) == {size}")
        said(f"_Alignof({name}) == {align}")
        left = {field: (c, n) for field, c, n in structs[name]}
        fields(name, kind, 0, left)
        for field in left:
            bad.append(f"{name}.{field}: {kind} has no such field")
    else:
        same(where, name, fitted[kind])


def fields(name, kind, base, left):
    at = 0
    for field, inner in records[kind]:
        size, align = layout(inner)
        at = -(-at // align) * align
        if field in left:
            c, n = left.pop(field)
            placed(name, field, inner, c, n, base + at, size)
        elif inner in records:  # its fields stand in the header without a record around them
            fields(name, inner, base + at, left)
        else:
            bad.append(f"{name}: the header lacks {kind}.{field}")
        at += size


def placed(name, field, kind, c, n, at, size):
    said(f"offsetof({name}, {field}) == {at}")
    said(f"sizeof((({name} *)0)->{field}) == {size}")
    if not n:
        of_kind(f"(({name} *)0)->{field}", c)
        fit(f"{name}.{field}", kind, c)
        return
    of_kind(f"(({name} *)0)->{field}[0]", c)
    if array(kind):
        fit(f"{name}.{field}", array(kind)[0], c)
        said(f"sizeof((({name} *)0)->{field}) / sizeof({c}) == {array(kind)[1]}")
    else:  # a record of one kind of number is an array in the header
        for _, inner in records[kind]:
            fit(f"{name}.{field}", inner, c)


def of_kind(value, c):
    said(f"_Generic({value}, {c}: 1, default: 0)")


def said(fact):
    facts.append(f'_Static_assert({fact}, "{fact}");')


def function(name, given, answer):
    c_answer, c_given = declared[name]
    kinds, rest = [], list(c_given)

    def take():
        return rest.pop(0).rpartition(" ")[0] if rest else ""

    for parameter, kind in given:
        lent = re.fullmatch(r"&(mut )?\[(\w+)\]", kind)
        c = take()
        if lent:
            kinds += [f"{'' if lent[1] else 'const '}{SCALARS[lent[2]][0]} *", "size_t"]
            take()
        else:
            fit(f"{name}: {parameter}", kind, c)
            kinds.append(SCALARS[kind][0] if kind in SCALARS else c)
    same(f"{name}: parameters too many", rest, [])
    fit(f"{name}: the answer", answer, c_answer)
    kind = SCALARS[answer][0] if answer in SCALARS else c_answer
    said(f"_Generic(&{name}, {kind} (*)({', '.join(kinds) or 'void'}): 1, default: 0)")


# ---- refusals


def rows(text, columns):
    found = [[cell.strip() for cell in line.strip("|").split("|")] for line in text.splitlines() if line.startswith("|")]
    return [row for row in found if len(row) == columns and not set(row[0]) <= set("-")][1:]


def refusals():
    page = (root / "docs/REFUSALS.md").read_text()
    listed, fields, calls = page.split("\n## ")[1:4]
    names = {row[1]: int(row[0]) for row in rows(listed, 5)}
    same("refusals", {n: v for n, v in numbers.items() if not n.startswith("EALLUNSA_PLACE_")},
         {"EALLUNSA_" + n: v for n, v in names.items()})
    same("places", {n: v for n, v in numbers.items() if n.startswith("EALLUNSA_PLACE_")},
         {"EALLUNSA_PLACE_" + row[1]: int(row[0]) for row in rows(fields, 4)})
    same("widest numbers", widest, {"EALLUNSA_PLACE_" + row[1]: int(row[2]) for row in rows(fields, 4)})
    wrapper = root / "examples/rust/src/refusal.rs"
    same("refusals in Rust", {n: int(v) for v, n in re.findall(r'^ +(\d+) => (\w+), "', wrapper.read_text(), re.M)},
         {n.title().replace("_", ""): v for n, v in names.items()})

    orders = {}
    for call, order in re.findall(r"^\| (`.*?) \| (.*?) \|$", calls, re.M):
        crate = ""
        for name in re.findall(r"`([\w:]+)`", call):
            if "::" not in name:  # of the crate that was named last
                name = f"{crate}::{name}"
            crate = name.partition("::")[0]
            reading = re.search(r"the (\w+) reading", call)
            orders[name] = order
            if reading:
                orders[f"{name[:3]} {reading[1]}"] = order
    for name, (_, answer, made) in functions.items():
        made = [call for call in made if short(call, orders)]
        refuses = ("refusal", "Refusal") in records.get(answer, [])
        if "Refusals:" not in words.get(name, ""):
            bad.append(f"{name}: its comment has no refusals")
        elif refuses and len(made) != 1:
            bad.append(f"{name}: which call of docs/REFUSALS.md it makes is not clear: {made}")
        else:
            want = numbered(orders[short(made[0], orders)], made[0][:3], orders) if refuses else []
            same(f"{name}: refusals", by_words(name), want)


def short(call, orders):
    """A call by the name that docs/REFUSALS.md has for it, in which a module may be left out."""
    parts = call.split("::")
    return next((n for n in (call, "::".join([parts[0], parts[-1]])) if n in orders), None)


def numbered(order, table, orders):
    order = re.sub(r"\([^)]*\)", "", order)
    found = []
    for low, high, reading in re.findall(r"(\d+)(?: \.\. (\d+))?|those of the (\w+) reading", order):
        if reading:
            found += numbered(orders[f"{table} {reading}"], table, orders)
        else:
            found += range(int(low), int(high or low) + 1)
    return found


def by_words(name):
    found = []
    text = words[name].partition("Refusals:")[2]
    for refusal, number, other in re.findall(r"(EALLUNSA_\w+) \((\d+)\)|those of (eallunsa_\w+)", text):
        if other:
            found += by_words(other)
        else:
            same(f"{name}: {refusal}", int(number), numbers.get(refusal))
            found.append(int(number))
    return found


# ---- the version


def version():
    """Wherever the version is written, it is that of the changelog's first heading; the library's own is asked for."""
    (first, *_) = re.findall(r"^## (.*)", (root / "CHANGELOG.md").read_text(), re.M)
    for path, where in (("README.md", r"^Version (\S+)"), ("examples/rust/Cargo.toml", r'^version = "(.*)"')):
        same(f"version in {path}", re.findall(where, (root / path).read_text(), re.M), [first])


# ---- all of it

if len(sys.argv) != 3:
    sys.exit(__doc__)
archive, out = sys.argv[1:]
records, functions, constants = rattle()
structs, declared, words, numbers, widest = header()
symbols = subprocess.run(["nm", "-g", "--defined-only", archive], capture_output=True, text=True, check=True).stdout
same_names("functions of the header", declared, functions)
same_names("functions of the archive", [line.split()[2] for line in symbols.splitlines() if " T " in line], functions)
asked = subprocess.run(["nm", "-u", archive], capture_output=True, text=True, check=True).stdout
(told,) = re.findall(r"a C library for (.*?)\. \*/", (root / "include/eallunsa.h").read_text())
same_names("names that the archive asks for", {line.split()[1] for line in asked.splitlines() if " U " in line}, told.split(" and "))
same("names with another prefix", [name for name in [*declared, *structs] if not name.startswith(PREFIX)], [])
fitted, facts = {}, []
for name, (given, answer, _) in functions.items():
    if name in declared:
        function(name, given, answer)
same_names("records of the header", structs, fitted.values())
refusals()
version()
for line in bad:
    print("c_header: " + line)
pathlib.Path(out).write_text('#include "eallunsa.h"\n' + "\n".join(dict.fromkeys(facts)) + "\n")
print(f"c_header: {len(functions)} functions, {len(fitted)} records, {len(dict.fromkeys(facts))} assertions")
sys.exit(1 if bad else 0)
