#!/usr/bin/env python3
"""to32.py < any.ll > narrow.ll: makes the LLVM code of a Rattle library, which has addresses of 64 bits, code for a memory of 32 bits.

The layout of values in memory stays as it is: the code finds fields by their bytes, and an address fills the first half of its eight bytes.
So three things are changed, which have an address's size or a field's place from their type: local variables that hold an address,
structs with addresses that are loaded or stored whole, and constants with addresses. Numbers stay as they are (usize has 64 bits), and
LLVM cuts each address to 32 bits. The script stops at whatever it does not know."""

import collections
import re
import sys

SIZES = {"i1": 1, "i8": 1, "i16": 2, "i32": 4, "i64": 8, "i128": 16, "ptr": 8, "float": 4, "double": 8}
LAYOUT = 'target datalayout = "e-m:e-p:32:32-p10:8:8-p20:8:8-i64:64-i128:128-n32:64-S128-ni:1:10:20"'
ADDRESS = r"ptr (getelementptr \(i8, ptr @[\w.]+, i64 \d+\)|@[\w.]+)(?=,| *$)"
CONSTANT = re.compile(r"^(@\S+ = private (?:unnamed_addr )?constant <\{ )([^}]*)( \}> <\{ )(.*)( \}>, align \d+)$")
LOAD = re.compile(r"^(\s*)(%\S+) = load (\{[^}]*\}), ptr ([^\s,]+), align \d+")
STORE = re.compile(r"^(\s*)store (\{[^}]*\}) ([^\s,]+), ptr ([^\s,]+), align \d+")
# What would need a change that this script does not make.
UNKNOWN = [
    (r"\b(ptrtoint|inttoptr|addrspacecast)\b", "an address that becomes a number, or the other way round"),
    (r"= alloca (\{|\[\d+ x (ptr|\{))", "a local variable"),
    (r"\b(load|store) (\{|\[)", "a load or a store"),
    (r"getelementptr (inbounds |nuw |nusw )*(?!inbounds|nuw|nusw|i8,)\S", "an address by a type"),
    (r"\b(byval|sret)\(", "an argument in memory"),
]
counts = collections.Counter()
names = 0


def fresh():
    """A name that the code does not have."""
    global names
    names += 1
    return f"%to32.{names}"


def stop(what, text):
    sys.exit(f"to32: {what} that it does not know: {text[:300]}")


def fields_of(struct, text):
    """The types of a struct's fields, each with its place among the bytes."""
    at, found = 0, []
    for kind in struct.strip("{} ").split(", "):
        if kind not in SIZES:
            stop("a struct", text)
        at = -(-at // SIZES[kind]) * SIZES[kind]
        found.append((kind, at))
        at += SIZES[kind]
    return found


def has_address(struct):
    return re.search(r"\bptr\b", struct) is not None


def widened(text):
    """A packed constant, in which four bytes follow each address."""
    found = CONSTANT.match(text)
    if not found:
        stop("a constant", text)
    head, types, middle, values, tail = found.groups()
    pieces = re.split(r'(c"[^"]*")', values)
    count = 0
    for index in range(0, len(pieces), 2):
        pieces[index], here = re.subn(ADDRESS, r"\g<0>, [4 x i8] zeroinitializer", pieces[index])
        count += here
    if count != len(re.findall(r"\bptr\b", types)):
        stop("a constant", text)
    counts["addresses in constants"] += count
    return head + re.sub(r"\bptr\b", "ptr, [4 x i8]", types) + middle + "".join(pieces) + tail


def loaded(space, name, struct, at, text):
    """A struct that is loaded field by field."""
    counts["loads"] += 1
    whole, fields = "poison", fields_of(struct, text)
    for index, (kind, place) in enumerate(fields):
        to, value = fresh(), fresh()
        new = name if index == len(fields) - 1 else fresh()
        yield f"{space}{to} = getelementptr i8, ptr {at}, i64 {place}"
        yield f"{space}{value} = load {kind}, ptr {to}, align {min(SIZES[kind], 8)}"
        yield f"{space}{new} = insertvalue {struct} {whole}, {kind} {value}, {index}"
        whole = new


def stored(space, struct, value, at, text):
    """A struct that is stored field by field."""
    counts["stores"] += 1
    for index, (kind, place) in enumerate(fields_of(struct, text)):
        to, part = fresh(), fresh()
        yield f"{space}{part} = extractvalue {struct} {value}, {index}"
        yield f"{space}{to} = getelementptr i8, ptr {at}, i64 {place}"
        yield f"{space}store {kind} {part}, ptr {to}, align {min(SIZES[kind], 8)}"


def compared(space, name, at):
    """An address that is compared with another, as a number."""
    short = fresh()
    yield f"{space}{short} = ptrtoaddr ptr {at} to i32"
    yield f"{space}{name} = zext i32 {short} to i64"


def narrowed(text):
    """The lines that stand for a line."""
    if text.startswith((";", "!")):
        return [text]
    if text.startswith("@"):
        return [widened(text) if has_address(re.sub(r'c"[^"]*"', "", text)) else text]
    if text.startswith("target"):
        return [LAYOUT if text.startswith("target datalayout") else 'target triple = "wasm32-unknown-unknown"']
    if (found := LOAD.match(text)) and has_address(found[3]):
        return loaded(*found.groups(), text)
    if (found := STORE.match(text)) and has_address(found[2]):
        return stored(*found.groups(), text)
    if found := re.match(r"^(\s*)(%\S+) = ptrtoaddr ptr (\S+) to i64", text):
        return compared(*found.groups())
    if re.search(r"= alloca ptr\b", text):
        counts["local addresses"] += 1
        return [text.replace("= alloca ptr", "= alloca i64")]
    for pattern, what in UNKNOWN if not (LOAD.match(text) or STORE.match(text)) else ():
        if re.search(pattern, text):
            stop(what, text)
    return [text]


for line in sys.stdin:
    for text in narrowed(line.rstrip("\n")):
        print(text)
print("to32:", ", ".join(f"{count} {what}" for what, count in sorted(counts.items())), file=sys.stderr)
