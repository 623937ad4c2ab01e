#!/usr/bin/env python3
"""The ids that crates/house_tests expects of its commits in src/morning.rt and src/many.rt, by the plain house of morning.py, as the constants stand there."""
from morning import House

MOST = 65535


def show(name, ids):
    words = [int(ids[0][i:i + 16], 16) for i in range(0, 64, 16)]
    print(f"const {name}: Id = [{', '.join(f'0x{w:016x}' for w in words)}];")


def morning():
    x = House()
    x.work = {b"lock": b"3.2", b"weir": b"open"}
    show("FIRST", x.commit(1, b"first"))
    x.work = {b"lock": b"3.4", b"bridge": b"3"}
    show("SECOND", x.commit(2, b"north sounding"))
    x.work[b"lock"] = b""
    show("NO_WORDS", x.commit(2**64 - 1, b""))
    x.work[b"log"] = b"b" * MOST
    show("MOST_WORDS", x.commit(0, b"w" * MOST))
    x.work = {}
    show("NO_FILES", x.commit(7, b"empty"))
    x.work = {b"lock": b"3.2"}
    show("ONE_FILE", x.commit(8, b"one"))


def path(i):
    return b"a" * 62 + i.to_bytes(2, "big")


def many():
    x = House()
    x.work = {path(i): i.to_bytes(8, "big") for i in range(4096) if i != 1000}
    x.work[path(17)] = (170000).to_bytes(8, "big")
    x.work[path(4096)] = b"more"
    show("MANY", x.commit(0, b"many"))
    x.work[path(18)] = (180000).to_bytes(8, "big")
    del x.work[path(2000)]
    show("CHANGED", x.commit(2**64 - 1, b""))


morning()
many()
