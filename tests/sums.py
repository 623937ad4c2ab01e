#!/usr/bin/env python3
# What crates/store_tests must write, by Python's hashlib: tests/sums.py > crates/store_tests/stdout
from hashlib import sha256


def show(name, message):
    print(name, sha256(message).hexdigest())


def chain(first, last, width):
    return "".join(chr(c + i) for c in range(ord(first), ord(last) + 1) for i in range(width)).encode()


pattern = bytes((i * 7 + i // 3) % 256 for i in range(256))
show("empty", b"")
show("abc", b"abc")
show("448 bits", chain("a", "n", 4))
show("896 bits", chain("a", "n", 8))
show("million", b"a" * 1000000)
for n in range(131):
    show(f"{n} bytes", pattern[:n])
show("pieces", b"".join(pattern[:n] for n in range(257)))
