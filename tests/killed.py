#!/usr/bin/env python3
"""The program boat on a real file, killed at random moments and started again, beside a plain model of the commands that the house knows.

    (cd crates/boat && rt run -- /tmp/first.pages)
    tests/killed.py --pages 64 --commands 20000 --kills 1000 --seed 1

--kills 0 is a day without kills. --many keeps near 4,096 files. docs/KILLED.md says what is compared, and what this cannot try."""
import argparse
import collections
import hashlib
import os
import queue
import random
import struct
import subprocess
import sys
import tempfile
import threading
import time
import typing

TOP = os.path.dirname(os.path.dirname(os.path.abspath(__file__)))
MOST_FILES = 4096
MOST_BYTES = 65535
VERBS = {"write": 1, "drop": 2, "commit": 3, "history": 6, "show": 7, "status": 8, "read": 9, "leave": 12}
BRANCH = b"main"


# THE MODEL: a tree is a dict of paths and their bytes; a house has one in work, and the commits of its branch, the latest last.

class Commit(typing.NamedTuple):
    id: bytes
    words: bytes
    tree: dict


class State(typing.NamedTuple):
    work: dict
    log: tuple

    def noted(self):
        return self.log[-1].tree if self.log else {}


EMPTY = State({}, ())


def tree_weight(tree):
    return sum(64 + len(p) for p in tree)


def weight(state):
    files = set(state.work.values()).union(*(c.tree.values() for c in state.log))
    commits = sum(256 + len(c.words) + tree_weight(c.tree) for c in state.log)
    return sum(64 + len(b) for b in files) + commits + tree_weight(state.work) + (128 if state.log else 0)


def commit_of(state, stamp, words):
    parents = [c.id for c in state.log[-1:]]
    files = b"".join(row_of(p) + row_of(hashlib.sha256(b).digest()) for p, b in sorted(state.work.items()))
    spelled = (struct.pack(">Q", len(parents)) + b"".join(row_of(i) for i in parents) + struct.pack(">Q", len(state.work)) + files
               + struct.pack(">Q", stamp) + row_of(words))
    return Commit(hashlib.sha256(spelled).digest(), words, dict(state.work))


def marks(old, new):
    """What status shows of two trees: 1 new, 2 changed, 3 gone."""
    return [bytes([1 if p not in old else 3 if p not in new else 2]) + p for p in sorted({*old, *new}) if old.get(p) != new.get(p)]


def with_room(pages, rows, old, new):
    if weight(new) > weight(old) and weight(new) > pages * 512 // 4:
        return 8, [], old
    return 0, rows, new


def turn(pages, state, command):
    """What a command is answered, what it shows, and how the house stands afterwards."""
    verb, args = command[0], command[1:]
    work, noted = state.work, state.noted()
    if verb == "write":
        new = {**work, args[0]: args[1]}
        return (10, [], state) if len(new) > MOST_FILES else with_room(pages, [], state, state._replace(work=new))
    if verb == "drop":
        if args[0] not in work:
            return 3, [], state
        return 0, [], state._replace(work={p: b for p, b in work.items() if p != args[0]})
    if verb == "commit":
        if work == noted:
            return 7, [], state
        one = commit_of(state, *args)
        return with_room(pages, [one.id], state, state._replace(log=state.log + (one,)))
    if verb == "history":
        return 0, [c.id + c.words for c in reversed(state.log)], state
    if verb == "show":
        return (0, [noted[args[1]]], state) if args[0] == BRANCH and args[1] in noted else (3, [], state)
    if verb == "read":
        return (0, [work[args[0]]], state) if args[0] in work else (3, [], state)
    if verb == "status":
        return 0, marks(noted, work), state
    if verb == "leave":
        return with_room(pages, [], state, state._replace(work=noted))
    return (2 if verb == "unknown" else 1), [], state


# WHAT IS TYPED

def escapes(plain):
    table = [b"\\x%02x" % b for b in range(256)]
    for b in plain:
        table[b] = bytes([b])
    table[9], table[10], table[92] = b"\\t", b"\\n", b"\\\\"
    return table


IN_TEXT = escapes(range(32, 127))
IN_WORD = escapes(range(33, 127))
IN_WORD[32] = b"\\s"


def escaped(table, row):
    return b"".join(table[b] for b in row)


def row_of(row):
    return struct.pack(">Q", len(row)) + row


def line_of(command, raw):
    verb, args = command[0], command[1:]
    if verb not in VERBS:
        return args[0]
    if raw:
        return b"raw " + (bytes([VERBS[verb]]) + b"".join(struct.pack(">Q", a) if isinstance(a, int) else row_of(a) for a in args)).hex().encode()
    if verb == "commit":
        return b"commit %d " % args[0] + escaped(IN_TEXT, args[1])
    if verb == "show":
        return b" ".join([b"show"] + [escaped(IN_WORD, a) for a in args])
    words = [verb.encode()] + [escaped(IN_WORD, a) for a in args[:1]] + [escaped(IN_TEXT, a) for a in args[1:]]
    return b" ".join(words)


# WHAT IS DRAWN

UNKNOWN = [b"branch side", b"go to side", b"join side", b"settle a", b"move onto side", b"carry 0f",
           b"forget side", b"tag side", b"who a", b"sweep", b"fetch 1"]
NO_COMMAND = [b"raw", b"raw 00", b"raw 14", b"raw 0800", b"raw 0c00", b"raw 020000000000000000", b"raw 09000000000000000261",
              b"raw 0100000000000000016100000000000000026162" + b"63", b"raw ff"]


class Draws:
    def __init__(self, seed, pages, many):
        self.random = random.Random(seed)
        self.pages, self.many = pages, many
        self.paths = self.some_paths(4200 if many else 12 if pages < 128 else 30)
        self.kept = collections.deque([b"", b"the same bytes"], maxlen=8)

    def some_paths(self, count):
        r, paths = self.random, [b"a", b"a.txt", b"a b", b"\xff\x00\n\\:#", bytes(64), b"n" * 64, b"n" * 63]
        while len(paths) < count:
            p = r.choice(paths)[:r.randint(0, 63)] + r.randbytes(1) if r.random() < 0.3 else r.randbytes(r.choice((1, 2, 3, 3, 8, 30, 64)))
            if self.many:
                p = p[:4]
            if p not in paths[-400:] and p not in set(paths):
                paths.append(p)
        return paths

    def size(self, state, path):
        """From nothing to 65,535 bytes; often just what still finds room, or one byte more."""
        r, x = self.random, self.random.random()
        quarter = self.pages * 128
        if x < 0.45 or self.many and x < 0.95:
            return r.randint(0, 300)
        if x < 0.65:
            return r.randint(0, quarter // 8)
        if x < 0.8:
            return r.randint(0, quarter)
        if x < 0.95:
            rest = {p: b for p, b in state.work.items() if p != path}
            return quarter - weight(state._replace(work=rest)) - 128 - len(path) + r.choice((-1, 0, 0, 1, 1, 2))
        return r.choice((MOST_BYTES, MOST_BYTES - 1, r.randint(0, MOST_BYTES)))

    def text(self, state, path):
        r, work = self.random, state.work
        if r.random() < 0.25:
            return r.choice(self.kept if r.random() < 0.5 or not work else list(work.values()))
        n = min(max(self.size(state, path), 0), MOST_BYTES)
        one = r.randbytes(n) if r.random() < 0.5 else (b"%d fathoms at the lock, " % r.randrange(10 ** 6) * (n // 16 + 1))[:n]
        self.kept.append(one)
        return one

    def words(self):
        r = self.random
        return r.randbytes(r.choice((0, 1, 8, 30, 30, 60))) if r.random() < 0.97 else r.randbytes(r.randint(0, MOST_BYTES))

    def command(self, state):
        r, x, work = self.random, self.random.random(), state.work
        path = r.choice(self.paths)
        if work and r.random() < 0.5:
            path = r.choice(list(work))
        elif self.many and x < 0.5:
            path = r.choice([p for p in self.paths if p not in work])
        if x < 0.5:
            return "write", path, self.text(state, path)
        if x < 0.66:
            return "drop", path
        if x < 0.8:
            return "read", path
        if x < 0.84:
            return "show", BRANCH if r.random() < 0.9 else b"side", path
        if x < 0.88:
            return ("status",)
        if x < 0.91:
            return ("history",)
        if x < 0.94:
            return "commit", r.choice((0, 1, r.randrange(2 ** 64), 2 ** 64 - 1)), self.words()
        if x < 0.96:
            return ("status",) if self.many else ("leave",)
        return ("unknown", r.choice(UNKNOWN)) if x < 0.985 else ("none", r.choice(NO_COMMAND))


# THE PROGRAM

class Broken(Exception):
    """The day cannot go on."""


class Boat:
    def __init__(self, program, file, pages, errors):
        self.process = subprocess.Popen([program, file, str(pages)], stdin=subprocess.PIPE, stdout=subprocess.PIPE, stderr=errors, bufsize=0)
        self.lines = queue.SimpleQueue()
        self.reader = threading.Thread(target=self.read, daemon=True)
        self.reader.start()
        self.writer = None

    def read(self):
        """Whole lines as they come; at the end what stands there of one, and then None."""
        rest, fd = b"", self.process.stdout.fileno()
        while chunk := os.read(fd, 1 << 18):
            *whole, rest = (rest + chunk).split(b"\n")
            for line in whole:
                self.lines.put((line, True))
        if rest:
            self.lines.put((rest, False))
        self.lines.put(None)

    def say(self, text):
        """A long text would wait until it is read, and a kill is not to wait for that."""
        if len(text) <= 32768:
            return self.write(text)
        if self.writer:
            self.writer.join()
        self.writer = threading.Thread(target=self.write, args=(text,), daemon=True)
        self.writer.start()

    def write(self, text):
        left = memoryview(text)
        try:
            while left:
                left = left[self.process.stdin.write(left):]
        except BrokenPipeError:
            pass

    def answer(self):
        """The reply, none where the output ended before it, and the lines in front of it; the last may be a part of one."""
        shown = []
        while True:
            try:
                got = self.lines.get(timeout=300)
            except queue.Empty:
                raise Broken("there was no answer for 300 seconds") from None
            if got is None:
                return None, shown
            line, whole = got
            if line == b"done":
                return 0, shown
            if whole and line.startswith(b"refused "):
                return int(line[8:]), shown
            shown.append(got)

    def kill(self):
        self.process.kill()
        self.ended()

    def end(self):
        self.process.stdin.close()
        return self.ended()

    def ended(self):
        status = self.process.wait()
        self.reader.join()
        if self.writer:
            self.writer.join()
        self.process.stdout.close()
        try:
            self.process.stdin.close()
        except BrokenPipeError:
            pass
        return status


# THE DAY

class Day:
    def __init__(self, args, folder):
        self.args = args
        self.draws = Draws(args.seed, args.pages, args.many)
        self.random = self.draws.random
        self.file = os.path.join(folder, "killed.pages")
        self.errors = open(os.path.join(folder, "errors"), "w+b")
        self.state = EMPTY
        self.counts = collections.Counter()
        self.took = {}
        self.boat = self.start()
        self.first = 0

    def start(self):
        self.counts["starts"] += 1
        return Boat(self.args.boat, self.file, self.args.pages, self.errors)

    def mismatch(self, what):
        self.counts["mismatches"] += 1
        said = what if len(what) < 2000 else what[:2000] + " .."
        print(f"MISMATCH at command {self.counts['commands']}, kill {self.counts['kills']}: {said}", flush=True)
        if self.counts["mismatches"] == 20:
            raise Broken("too many mismatches")

    # The head's first two words, which only the counts of sweeps need: the window, from its first page to before its last.
    def window(self):
        with open(self.file, "rb") as f:
            return struct.unpack(">QQ", f.read(16))

    def is_tight(self):
        first, last = self.window()
        quarter = self.args.pages * 128
        reserve = (quarter + quarter // 8 + 1024 + 511) // 512
        return self.args.pages - 1 < 2 * reserve + last - first

    def saw_window(self):
        first = self.window()[0]
        moved = first != self.first
        self.first = first
        self.counts["sweeps"] += moved
        return moved

    def compare(self, command, reply, shown, plain):
        """An answer beside the model's; one that was cut off has to be its beginning."""
        want, rows = plain[0], [(r.hex().encode(), True) for r in plain[1]]
        if reply is None:
            whole = shown if not shown or shown[-1][1] else shown[:-1]
            part = b"" if len(whole) == len(shown) else shown[-1][0]
            after = rows[len(whole)][0] if len(whole) < len(rows) else b"done" if want == 0 else b"refused %d" % want
            if whole != rows[:len(whole)] or not after.startswith(part):
                self.mismatch(f"{command!r} was cut off after {shown!r}, and shows {rows!r}")
        elif (reply, shown) != (want, rows):
            self.mismatch(f"{command!r} was answered {reply} {shown!r}, and is to be {want} {rows!r}")

    def answered(self, command, reply):
        self.counts["commands"] += 1
        self.counts[command[0]] += 1
        if reply:
            self.counts[f"refused {reply}"] += 1
        elif command[0] == "write":
            self.counts["longest"] = max(self.counts["longest"], len(command[2]))

    def line(self, command):
        return line_of(command, self.random.random() < 0.3) + b"\n"

    def ask(self, command):
        """One command to its end."""
        plain = turn(self.args.pages, self.state, command)
        text = self.line(command)
        begun = time.perf_counter()
        self.boat.say(text)
        reply, shown = self.boat.answer()
        self.took.setdefault(command[0], collections.deque(maxlen=100)).append(time.perf_counter() - begun)
        self.compare(command, reply, shown, plain)
        if reply is None:
            raise Broken(f"it ended by itself, status {self.boat.ended()}")
        self.answered(command, reply)
        self.state = plain[2]
        self.saw_window()

    def asked(self, text):
        self.boat.say(text)
        reply, shown = self.boat.answer()
        if reply is None:
            raise Broken(f"it ended by itself while it was asked {text[:80]!r}, status {self.boat.ended()}")
        return reply, [row for row, _ in shown]

    def files(self, verb, *front):
        """Each sheet that can be asked for so, of all paths that were ever drawn or may be there."""
        there = {}
        for p in sorted({*self.state.work, *self.state.noted(), *self.draws.paths}):
            reply, rows = self.asked(line_of((verb, *front, p), False) + b"\n")
            self.counts["reads"] += 1
            if reply == 0 and len(rows) == 1:
                there[p] = bytes.fromhex(rows[0].decode())
            elif reply != 3 or rows:
                self.mismatch(f"{verb} {p!r} was answered {reply} {rows!r}")
        return there

    def all_there(self):
        """All that can be asked: what is in work, what was noted last, the log, and what differs."""
        work, noted = self.files("read"), self.files("show", BRANCH)
        reply, rows = self.asked(b"status\n")
        if reply or [bytes.fromhex(r.decode()) for r in rows] != marks(noted, work):
            self.mismatch(f"status was answered {reply} {rows!r}")
        reply, rows = self.asked(b"history\n")
        if reply:
            self.mismatch(f"history was answered {reply}")
        self.counts["compared"] += 1
        return work, noted, [bytes.fromhex(r.decode()) for r in rows]

    def check(self, *may_be):
        """What is there has to be one of these; says which."""
        there = self.all_there()
        for place, state in enumerate(may_be):
            if there == (state.work, state.noted(), [c.id + c.words for c in reversed(state.log)]):
                self.state = state
                return place
        self.mismatch(f"there are {there!r}, and may be {may_be!r}")
        raise Broken("what is there is none of what may be")

    def wait_for(self, commands):
        """As long as such commands took, or less."""
        took = sum(self.random.choice(self.took.get(c[0], [0.001])) for c in commands)
        time.sleep(took * self.random.uniform(0, 1.2))

    def kill_idle(self):
        self.boat.kill()
        self.counts["kills with nothing to do"] += 1
        return [self.state]

    def kill_running(self):
        """Commands are said, one or several behind each other, and it is killed while they run. What may be there: what all that was answered leaves, or one more."""
        if self.random.random() < 0.6:
            for _ in range(500):
                if self.is_tight():
                    break
                self.ask(self.draws.command(self.state))
        tight = self.is_tight()
        states, commands, plains = [self.state], [], []
        for _ in range(1 if tight else self.random.choice((1, 1, 2, 5, 12))):
            command = self.draws.command(states[-1])
            while tight and (command[0] not in ("write", "drop", "commit") or turn(self.args.pages, self.state, command)[0]):
                command = self.draws.command(states[-1])
            commands.append(command)
            plains.append(turn(self.args.pages, states[-1], command))
            states.append(plains[-1][2])
        text = b"".join(self.line(c) for c in commands)
        first = self.window()[0]
        self.boat.say(text)
        self.wait_for(commands)
        self.boat.kill()
        done = 0
        reply = None
        while done < len(commands):
            reply, shown = self.boat.answer()
            self.compare(commands[done], reply, shown, plains[done])
            if reply is None:
                break
            self.answered(commands[done], reply)
            done += 1
        self.counts["kills in a command"] += 1
        swept = self.window()[0] != first
        self.saw_window()
        if done == len(commands):
            self.counts["  after its answer"] += 1
            return [states[done]]
        self.counts["cut off"] += 1
        if tight:
            self.counts["  in one that sweeps first"] += 1
            self.counts["    the sweep's head was there" if swept else "    the sweep's head was not there"] += 1
        return states[done:done + 2]

    def kill(self):
        kind = self.random.random()
        may_be = self.kill_idle() if kind < 0.1 else self.kill_running()
        self.counts["kills"] += 1
        while self.random.random() < 0.15 and self.counts["kills"] < self.args.kills:
            self.boat = self.start()
            time.sleep(self.random.uniform(0, 0.006))
            self.boat.kill()
            self.counts["kills"] += 1
            self.counts["kills as it starts"] += 1
        self.boat = self.start()
        place = self.check(*may_be)
        if len(may_be) == 2:
            same = may_be[0] == may_be[1]
            self.counts["  in one that changes nothing" if same else "  left as before it" if place == 0 else "  left as after it"] += 1

    def fill(self):
        for path in self.draws.paths[:4090]:
            self.ask(("write", path, b"sheet %d" % self.random.randrange(50)))

    def run(self):
        if self.args.many:
            self.fill()
        begun = self.counts["commands"]
        between = self.args.commands / max(self.args.kills, 1)
        told = time.monotonic()
        while self.counts["commands"] - begun < self.args.commands or self.counts["kills"] < self.args.kills:
            for _ in range(self.random.randint(0, int(2 * between)) if self.args.kills else 50):
                self.ask(self.draws.command(self.state))
            if self.counts["kills"] < self.args.kills:
                self.kill()
            else:
                self.check(self.state)
                if self.random.random() < 0.1:
                    self.end()
                    self.boat = self.start()
            if time.monotonic() - told > 20:
                told = time.monotonic()
                print(f".. {self.counts['commands']} commands, {self.counts['kills']} kills", file=sys.stderr, flush=True)
        self.check(self.state)
        self.end()

    def end(self):
        status = self.boat.end()
        if status:
            self.mismatch(f"it ended with status {status}")

    def print_counts(self):
        c = self.counts
        print(f"pages {self.args.pages}, seed {self.args.seed}{', many files' if self.args.many else ''}")
        verbs = ", ".join(f"{v} {c[v]}" for v in list(VERBS) + ["unknown", "none"])
        print(f"commands answered: {c['commands']} ({verbs})")
        print(f"cut off by a kill: {c['cut off']}")
        for name in ("kills", "kills with nothing to do", "kills as it starts", "kills in a command", "  after its answer", "  in one that changes nothing",
                     "  left as before it", "  left as after it", "  in one that sweeps first", "    the sweep's head was there", "    the sweep's head was not there"):
            print(f"{name}: {c[name]}")
        print("refused: " + ", ".join(f"{c[f'refused {n}']} with {n}" for n in (1, 2, 3, 7, 8, 10)))
        print(f"longest sheet written: {c['longest']}; sweeps: {c['sweeps']}")
        print(f"starts: {c['starts']}; all was asked: {c['compared']} times, with {c['reads']} reads")
        print(f"mismatches: {c['mismatches']}")


def main():
    parser = argparse.ArgumentParser(description="boat killed and started again, beside a plain model")
    parser.add_argument("--pages", type=int, default=64)
    parser.add_argument("--commands", type=int, default=20000)
    parser.add_argument("--kills", type=int, default=1000)
    parser.add_argument("--seed", type=int, default=1)
    parser.add_argument("--many", action="store_true", help="near 4,096 files, on 4,096 pages")
    parser.add_argument("--boat", default=os.path.join(TOP, "crates/boat/out/boat"))
    parser.add_argument("--folder", help="where the file of pages lies; a new folder if left out")
    args = parser.parse_args()
    if args.many:
        args.pages = 4096
    with tempfile.TemporaryDirectory(dir=args.folder) as folder:
        day = Day(args, folder)
        try:
            day.run()
        except Broken as error:
            day.counts["mismatches"] += 1
            print(f"BROKEN: {error}")
            day.errors.seek(0)
            print(day.errors.read().decode(errors="replace")[-1000:])
            day.boat.kill()
        day.print_counts()
    return 1 if day.counts["mismatches"] else 0


if __name__ == "__main__":
    sys.exit(main())
