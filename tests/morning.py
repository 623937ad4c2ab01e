#!/usr/bin/env python3
"""The morning of crates/player/data/morning.day at plain houses written anew, with hashlib for the sum: what `player plain` prints of it.

    tests/morning.py crates/player/data/morning.day

It is held to the expected output of the player in crates/player/stdout."""
import hashlib
import re
import sys


def sum_of(row):
    return hashlib.sha256(row).digest()


def eight(n):
    return n.to_bytes(8, "big")


def row(b):
    return eight(len(b)) + b


class Commit:
    def __init__(self, parents, tree, stamp, words):
        self.parents, self.tree, self.stamp, self.words = parents, tree, stamp, words
        spelled = eight(len(parents)) + b"".join(row(p.id) for p in parents)
        spelled += eight(len(tree)) + b"".join(row(p) + row(sum_of(tree[p])) for p in sorted(tree))
        self.id = sum_of(spelled + eight(stamp) + row(words))


def behind(starts):
    seen, todo = {}, list(starts)
    while todo:
        c = todo.pop()
        if c.id not in seen:
            seen[c.id] = c
            todo += c.parents
    return seen


def log(start):
    left, order = behind([start] if start else []), []
    while left:
        held = {p.id for c in left.values() for p in c.parents}
        best = min((c for c in left.values() if c.id not in held), key=lambda c: (-c.stamp, c.id))
        order.append(best)
        del left[best.id]
    return order


def latest_common(a, b):
    both = [c for i, c in behind([a]).items() if i in behind([b])]
    return [c for c in both if not any(d is not c and c.id in behind([d]) for d in both)]


def joined(bases, ours, theirs):
    tree, clashes = dict(ours), []
    for p in sorted(set(ours) | set(theirs)):
        a, b = ours.get(p), theirs.get(p)
        if a == b:
            continue
        a_changed = any(t.get(p) != a for t in bases)
        b_changed = any(t.get(p) != b for t in bases)
        if a_changed and b_changed:
            clashes.append(p)
        if not a_changed:
            if b is None:
                del tree[p]
            else:
                tree[p] = b
    return tree, clashes


class Refused(Exception):
    pass


class House:
    def __init__(self):
        self.branches, self.tags, self.others = {}, {}, {}
        self.here, self.work, self.joining, self.unsettled = b"main", {}, None, []

    def tip(self):
        return self.branches.get(self.here)

    def named(self, n):
        return self.branches.get(n) or self.tags.get(n) or self.others.get(n)

    def tip_tree(self):
        return self.tip().tree if self.tip() else {}

    def clean(self):
        return self.work == self.tip_tree() and self.joining is None

    def move(self, c):
        self.branches[self.here] = c
        self.work, self.joining, self.unsettled = dict(c.tree), None, []

    def commit(self, stamp, words):
        if self.unsettled:
            raise Refused(6)
        if self.clean():
            raise Refused(7)
        c = Commit([p for p in (self.tip(), self.joining) if p], dict(self.work), stamp, words)
        self.move(c)
        return [c.id.hex()]

    def status(self):
        old, rows = self.tip_tree(), []
        for p in sorted(set(old) | set(self.work)):
            if old.get(p) != self.work.get(p):
                rows.append(("1" if p not in old else "3" if p not in self.work else "2") + " " + p.decode())
        return rows + ["4 " + p.decode() for p in self.unsettled]

    def ready(self, n):
        them, us = self.named(n), self.tip()
        if not them or not us:
            raise Refused(3)
        if not self.clean():
            raise Refused(5)
        if them.id in behind([us]):
            raise Refused(7)
        return them, us

    def join(self, n):
        them, us = self.ready(n)
        if us.id in behind([them]):
            self.move(them)
            return [them.id.hex()]
        bases = [c.tree for c in latest_common(them, us)] or [{}]
        self.work, clashes = joined(bases, us.tree, them.tree)
        self.joining, self.unsettled = them, list(clashes)
        return [p.decode() for p in clashes]

    def move_onto(self, n):
        them, us = self.ready(n)
        if us.id in behind([them]):
            self.move(them)
            return [them.id.hex()]
        mine, at, made = [], us, []
        while at and at.id not in behind([them]):
            mine.insert(0, at)
            at = at.parents[0] if at.parents else None
        at = them
        for c in mine:
            base = c.parents[0].tree if c.parents else {}
            tree, clashes = joined([base], at.tree, c.tree)
            if clashes or len(c.parents) > 1:
                raise Refused(6)
            if tree != at.tree:
                at = Commit([at], tree, c.stamp, c.words)
                made.append(at.id.hex())
        self.move(at)
        return made

    def who(self, p):
        held = self.tip_tree().get(p)
        if held is None:
            raise Refused(3)
        for c in log(self.tip()):
            if c.tree.get(p) == held and all(q.tree.get(p) != held for q in c.parents):
                return [c.id.hex()]
        return []

    def weight(self):
        refs = list(self.branches.values()) + list(self.tags.values()) + list(self.others.values())
        reach = behind(refs + ([self.joining] if self.joining else []))
        files = {b for c in reach.values() for b in c.tree.values()} | set(self.work.values())
        lines = [p for c in reach.values() for p in c.tree] + list(self.work)
        return (sum(64 + len(b) for b in files) + sum(64 + len(p) for p in lines)
                + sum(256 + len(c.words) for c in reach.values()) + 128 * len(refs))


def bytes_of(text):
    return re.sub(rb"\\x([0-9a-f]{2})", lambda m: bytes([int(m[1], 16)]), text.encode())


def found(value):
    if value is None:
        raise Refused(3)
    return [value.decode()]


def ask(houses, c, line):
    x, words = houses[c], line.split(" ")
    verb, args = words[0], [bytes_of(w) for w in words[1:]]
    rest = " ".join(words[2:]).encode()
    if verb == "write":
        x.work[args[0]] = rest
        x.unsettled = [p for p in x.unsettled if p != args[0]]
        return []
    if verb == "drop":
        found(x.work.pop(args[0], None))
        x.unsettled = [p for p in x.unsettled if p != args[0]]
        return []
    if verb == "leave":
        x.work, x.joining, x.unsettled = dict(x.tip_tree()), None, []
        return []
    if verb == "commit":
        return x.commit(int(words[1]), rest)
    if verb == "branch":
        x.branches[args[0]] = x.tip()
        return []
    if verb == "go":
        if args[1] not in x.branches:
            raise Refused(3)
        if not x.clean():
            raise Refused(5)
        x.here = args[1]
        x.work = dict(x.tip().tree)
        return []
    if verb == "history":
        return [d.id.hex() + " " + d.words.decode() for d in log(x.tip())]
    if verb == "show":
        them = x.named(args[0])
        return found(them.tree.get(args[1]) if them else None)
    if verb == "status":
        return x.status()
    if verb == "read":
        return found(x.work.get(args[0]))
    if verb == "join":
        return x.join(args[0])
    if verb == "settle":
        if args[0] not in x.unsettled:
            raise Refused(6)
        x.unsettled.remove(args[0])
        return []
    if verb == "move":
        return x.move_onto(args[1])
    if verb == "who":
        return x.who(args[0])
    if verb == "fetch":
        d = int(words[1])
        x.others = {n: k for n, k in x.others.items() if n[0] != d}
        x.others.update({bytes([d]) + n: k for n, k in houses[d].branches.items()})
        return []
    raise ValueError(line)


def main():
    houses = [House(), House()]
    for line in open(sys.argv[1]).read().splitlines():
        m = re.match(r"(\d+): (.*)", line)
        if not m:
            continue
        print(line)
        try:
            for shown in ask(houses, int(m[1]), m[2]):
                print("    " + shown)
        except Refused as r:
            print("    refused", r)
    for c, x in enumerate(houses):
        print("house", c, "keeps", x.weight())


if __name__ == "__main__":
    main()
