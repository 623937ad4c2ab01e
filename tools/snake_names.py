#!/usr/bin/env python3
"""Spells the repository's own definitions and lemmas as today's Rattle does: words in snake case, types in camel case, `get_or` for `getD`.

usage: python3 tools/snake_names.py [--list]      anywhere in the repository, after the kit's port.py; --list only prints the old and new names

Own names are those that a file of specs/ or proofs/ declares, or gives to what it imports. A name that Rattle makes (a goal, a loop, a call) and
one that a file takes from the library keep their spelling. Where a new name stands somewhere already, or two names would get it, a line
`meets:` says so, to be looked at: a function of src/ may have the name of what it computes, but two definitions may not fall together.
A second run changes nothing.
"""

import collections
import os
import re
import subprocess
import sys

NAME = r"[^\s(){}\[\];,.:∷λ→≡«»\"|⌜⌝×⊎∗]+"
WORD = re.compile(NAME)
IMPORT = re.compile(r"^\s*(?:pub )?(?:ghost )?use ")
USE = re.compile(r"^\s*(?:pub )?(?:ghost )?use ([\w.·-]+)\.\{([^}]*)\};?\s*$")
ALIAS = re.compile(r" as (" + NAME + r")")
DECLARED = re.compile(r"^\s*(?:(?:abbrev|pub|unfoldable|data|record|let|in let)\s+)*(" + NAME + r")(?:\s+[({].*?[)}])*\s+:(?!:)\s*(.*)$")
HEADED = re.compile(r"^\s*(?:(?:abbrev|pub|unfoldable)\s+)*(?:data|record)\s+(" + NAME + r")\b")
LOCAL = re.compile(r"\blet (" + NAME + r")\s*(?::|=)")
BINDERS = re.compile(r"[({](" + NAME + r"(?: " + NAME + r")*) : |λ ((?:" + NAME + r" ?)+)\. ")
MADE = re.compile(r"^(?:goal|given)\.")


def said(*words):
    return subprocess.run(words, capture_output=True, text=True, check=True).stdout


def texts_below(root):
    listed = said("git", "-C", root, "ls-files", "-co", "--exclude-standard", "crates").split("\n")
    for name in sorted(set(listed)):
        path = os.path.join(root, name)
        if name.endswith((".antt", ".rt")) and os.path.exists(path):
            with open(path, encoding="utf-8") as it:
                yield path, it.read()


def turned(name):
    name = name.replace("getD", "get_or")
    if re.match(r"[A-Z][A-Za-z0-9]*(?:-|[a-z0-9]_[a-z])", name):
        return "".join(part[:1].upper() + part[1:] for part in re.split(r"[-_]", name))
    return re.sub(r"(?<=[\w'₀-₉])-(?=[^\W_])", "_", name)


def declared(text, is_code):
    """The names that a file declares and that are to be turned, and the names of goals that it answers."""
    own, goals = set(), set()
    for line in text.split("\n"):
        if IMPORT.match(line):
            own.update(ALIAS.findall(line))
            continue
        if is_code or line.lstrip().startswith("--"):
            continue
        own.update(HEADED.findall(line))
        own.update(LOCAL.findall(line))
        for it in BINDERS.finditer(line):
            own.update((it.group(1) or it.group(2)).split(" "))
        it = DECLARED.match(line)
        if it:
            (goals if MADE.match(it.group(2)) else own).add(it.group(1))
    return {name for name in own if name and turned(name) != name}, goals


def imports(text):
    """What a file takes, by path: names that it doesn't rename."""
    for line in text.split("\n"):
        it = USE.match(line)
        for word in it.group(2).split(",") if it else ():
            if word.strip() and " as " not in word:
                yield it.group(1), word.strip()


def main(argv):
    root = said("git", "rev-parse", "--show-toplevel").strip()
    own_path = re.compile(r"^Rattle[.·](?:" + "|".join(sorted(os.listdir(os.path.join(root, "crates")))) + r")\b")
    texts = dict(texts_below(root))
    own, goals, words = set(), set(), collections.Counter()
    for path, text in texts.items():
        names, answered = declared(text, path.endswith(".rt"))
        own |= names
        goals |= answered
        words.update(WORD.findall(text))
    table = {name: turned(name) for name in own - goals}
    olds = collections.defaultdict(list)
    for old, new in sorted(table.items()):
        olds[new].append(old)
        if "--list" in argv:
            print(old, new)
    for new, names in sorted(olds.items()):
        if len(names) > 1 or words[new]:
            print("meets:", new, "from", names, "stands", words[new], "times")
    if "--list" in argv:
        return 0
    for path, text in texts.items():
        kept = {name for source, name in imports(text) if not own_path.match(source)} | declared(text, path.endswith(".rt"))[1]

        def respelled(it):
            return it.group() if it.group() in kept else table.get(it.group(), it.group())

        new = "\n".join(line if line.lstrip().startswith("//") else WORD.sub(respelled, line) for line in text.split("\n"))
        if new != text:
            with open(path, "w", encoding="utf-8") as it:
                it.write(new)
    return 0


if __name__ == "__main__":
    raise SystemExit(main(sys.argv[1:]))
