#!/usr/bin/env python3
"""Where src/ is still written as an older Rattle asked for: places by point, to be counted before and after a pass over the design.

usage: forms.py [REPO] [--point N] [--list]      (default: the current folder, all points, counts alone)

A place is a line, a function, a pair of functions or a repeated fact that one of the patterns below meets. The patterns cast
wide on purpose: a place that is right as it stands is met too, and the page that cites these counts says why it stays."""
import argparse
import os
import re
from collections import defaultdict

TRAITS = {'main', 'new', 'fmt', 'from', 'load', 'save', 'wake', 'hear', 'resume'}
COMMENT = re.compile(r'//.*$')
FUNCTION = re.compile(r'^\s*(?:pub(?:\([a-z]+\))? )?(?:const )?(?:unsafe )?fn (\w+)')
NUMBER = r'(?:u8|u16|u32|u64|usize)'


class Function:
    def __init__(self, path, line, name):
        self.path, self.line, self.name = path, line, name
        self.head, self.clauses, self.body = [], [], []

    @property
    def signature(self):
        return ' '.join(' '.join(self.head).split())

    @property
    def text(self):
        return '\n'.join(self.body)

    @property
    def place(self):
        return f'{self.path}:{self.line}: {self.name}'


def sources(repo):
    for folder, names, files in os.walk(os.path.join(repo, 'crates')):
        names[:] = sorted(n for n in names if n not in ('out', 'target', '.git'))
        if os.path.basename(folder) != 'src' and '/src/' not in folder + '/':
            continue
        for name in sorted(files):
            if name.endswith('.rt'):
                path = os.path.join(folder, name)
                with open(path) as file:
                    yield os.path.relpath(path, repo), file.read().split('\n')


def functions(path, lines):
    """Each function with its head, clauses and body; by layout, which rt fmt fixes."""
    i = 0
    while i < len(lines):
        found = FUNCTION.match(lines[i])
        if not found:
            i += 1
            continue
        function = Function(path, i + 1, found.group(1))
        indent = len(lines[i]) - len(lines[i].lstrip())
        close = ' ' * indent + '}'
        part = function.head
        while i < len(lines):
            line = lines[i]
            bare = line.strip()
            if part is not function.body and line == ' ' * indent + '{}':
                break
            if part is function.head and re.match(r'(requires|ensures)', bare):
                part = function.clauses
            if part is not function.body and (line == ' ' * indent + '{' or
                                              (part is function.head and line.endswith('{') and not bare.startswith('ghost'))):
                if line != ' ' * indent + '{':
                    function.head.append(line.rstrip('{'))
                part = function.body
                i += 1
                continue
            if part is not function.body and bare.endswith(';'):
                part.append(line)
                break
            if part is function.body and line == close:
                break
            if part is function.body and function.body == [] and bare.endswith('{}'):
                break
            part.append(line)
            i += 1
        yield function
        i += 1


def folded(text):
    """A text with names, numbers and strings folded, so that two that differ only there are the same."""
    keep = {'fn', 'let', 'mut', 'if', 'else', 'match', 'for', 'while', 'in', 'return', 'Some', 'None', 'Ok', 'Err', 'true', 'false', 'as', 'self'}
    text = re.sub(r'b?"[^"]*"', 's', text)
    return ' '.join(t if t in keep or not re.match(r'\w', t) else 'x' for t in re.findall(r"\w+|[^\w\s]", text))


def parameters(signature):
    inside = signature[signature.find('(') + 1:]
    inside = inside[:inside.rfind(')')] if ')' in inside else inside
    inside = inside.split(') ->')[0]
    found, depth, start = [], 0, 0
    for at, c in enumerate(inside + ','):
        if c in '([<{':
            depth += 1
        elif c in ')]>}':
            depth -= 1
        elif c == ',' and depth <= 0:
            word = ' '.join(inside[start:at].split())
            if ':' in word:
                found.append(word)
            start = at + 1
    return found


def point_1(files, all_functions):
    """Flags with values, numbers for kinds and refusals, own Options and Results."""
    names = r'(?:kind|code|phase|reply|end|how|stage|outcome|digit|found|peer|looks)'
    for path, lines in files:
        for i, line in enumerate(lines):
            code = COMMENT.sub('', line)
            if re.search(r'\b' + names + r': &?(?:mut )?' + NUMBER + r'\b', code) and not FUNCTION.match(line):
                yield f'{path}:{i + 1}: a number for a kind: {line.strip()}'
            if re.search(r'^\s*(?:pub )?\w+: bool,', code):
                yield f'{path}:{i + 1}: a flag: {line.strip()}'
            if re.search(r'const (?:RUNNING|FAULT|NOBODY|NONE)\b', code):
                yield f'{path}:{i + 1}: a number that is none: {line.strip()}'
            if re.search(r'^\s*(?:pub )?(?:None|Nothing|Same|Refused\(u64\)|No\(u64\)),', code):
                yield f'{path}:{i + 1}: an enum that says none or refused: {line.strip()}'
    for f in all_functions:
        head = f.signature
        if re.search(r'-> u8$', head.strip()) and f.text.strip() == '0':
            yield f'{f.place}: a number that says nothing'
        elif re.search(r'\b' + names + r': ' + NUMBER + r'\b', head):
            yield f'{f.place}: takes a number for a kind'
        if re.search(r'fn of_\w+\(.*bool.*-> u64', head) or re.search(r'fn \w+_code\(', head):
            yield f'{f.place}: answers a number for a kind'
        if re.search(r'&mut', head) and head.strip().endswith('-> bool'):
            yield f'{f.place}: changes, and answers by a flag'
        for m in re.finditer(r'match [^\n]*\{\n\s*(?:0|1)(?: \| \d+)* =>', f.text):
            yield f'{f.place}: a match on numbers'


def point_2(files, all_functions):
    """Functions that differ only in names, numbers and texts, runs of five such lines, and one name with one shape in several crates."""
    groups = defaultdict(list)
    runs = defaultdict(list)
    names = defaultdict(list)
    for f in all_functions:
        lines = [folded(line) for line in f.body if line.strip() and not line.strip().startswith('//')]
        if len(lines) >= 3:
            groups[folded(f.signature) + '|' + '\n'.join(lines)].append(f)
            names[f.name].append(f)
        for at in range(len(lines) - 4):
            run = '\n'.join(lines[at:at + 5])
            if len(run) > 100:
                runs[run].append(f)
    seen = set()
    for group in groups.values():
        if len(group) > 1:
            seen.add(frozenset(f.place for f in group))
            yield ' ~ '.join(f.place for f in group)
    for run in runs.values():
        places = frozenset(f.place for f in run)
        if len(places) > 1 and not any(places <= other for other in seen):
            seen.add(places)
            yield 'five lines: ' + ' ~ '.join(sorted(places))
    for name, group in names.items():
        crates = defaultdict(list)
        for f in group:
            crates[tuple(p.split(': ')[-1] for p in parameters(f.signature)), f.signature.split('->')[-1].strip() if '->' in f.signature else ''].append(f)
        for same in crates.values():
            places = frozenset(f.place for f in same)
            if len({f.path.split('/')[1] for f in same}) > 1 and name not in TRAITS and not any(places <= other for other in seen):
                seen.add(places)
                yield 'one name: ' + ' ~ '.join(sorted(places))


def point_3(files, all_functions):
    """Loops that count."""
    for path, lines in files:
        for i, line in enumerate(lines):
            code = COMMENT.sub('', line)
            if re.search(r'^\s*while\b', code):
                yield f'{path}:{i + 1}: {line.strip()}'
            elif re.search(r'^\s*for \(?[a-z]\w*\)? in .*\.\.', code) and not re.search(r'\[.*\.\..*\]\)? \{$', code):
                yield f'{path}:{i + 1}: {line.strip()}'


def point_4(files, all_functions):
    """Equality, order, copying, conversion and printing by hand."""
    word = re.compile(r'^(?:put_\w+|print_\w*|show\w*|compare|alike|same|sooner|copied|copy_of|tree_copy|none|blank_\w+|\w+_code|\w+_in|add_counts|'
                      r'as_page|digits?_of|value_of|byte_of|number_of|mode_of|verb_of|text|spelled|put|name_of|hex_digit|words)$')
    for f in all_functions:
        if word.match(f.name):
            yield f'{f.place}: by hand'
        elif f.name in ('new', 'none', 'whole') and re.search(r'\(\)', f.signature) and len(re.findall(r': (?:0|\[0; \d+\]|false|None),', f.text)) >= 3:
            yield f'{f.place}: a Default by hand'
    for path, lines in files:
        for i, line in enumerate(lines):
            if re.match(r'^impl(?:<.*>)? (?:From|PartialEq|Ord|PartialOrd|Clone|fmt::Display|Display|TryFrom)', line):
                yield f'{path}:{i + 1}: {line.strip()}'


def point_5(files, all_functions):
    """Facts in the contracts of three functions or more, and parameters that travel together through as many."""
    facts = defaultdict(set)
    for f in all_functions:
        for clause in f.clauses:
            found = re.match(r'\s*requires\s*\w*\s*\{ (.*) \}', clause)
            if found:
                for part in re.split(r' × ', found.group(1)):
                    facts[f.path.split('/')[1], part.strip('() ').replace('.old', '').replace('.now', '')].add(f.place)
    for (crate, fact), places in sorted(facts.items()):
        if len(places) >= 3:
            yield f'{crate}: {fact}: {len(places)} functions'
    pairs = defaultdict(set)
    for f in all_functions:
        own = parameters(f.signature)
        for a in range(len(own)):
            for b in range(a + 1, len(own)):
                pairs[f.path.split('/')[1], tuple(sorted((own[a], own[b])))].add(f.place)
    groups = defaultdict(list)
    for (crate, pair), places in pairs.items():
        if len(places) >= 3:
            groups[crate, frozenset(places)].append(pair)
    for (crate, places), found in sorted(groups.items(), key=lambda g: (g[0][0], sorted(g[0][1]))):
        words = sorted({w for pair in found for w in pair})
        yield f'{crate}: {"; ".join(words)}: {len(places)} functions'


def point_6(files, all_functions):
    """Buffers with lengths, parallel rows, searches by hand, indices into arenas."""
    for path, lines in files:
        text = '\n'.join(lines)
        for m in re.finditer(r'struct (\w+)[^{;]*\{\n(.*?)\n\}', text, re.S):
            body = COMMENT.sub('', m.group(2))
            line = text[:m.start()].count('\n') + 1
            if re.search(r': \[\w+; \d+\]', body) and re.search(r'\b(?:size|len|count|at|end): ' + NUMBER, body):
                yield f'{path}:{line}: {m.group(1)}: a buffer with its length'
            if len(re.findall(r': Vec<(?:u64|usize|bool)>', body)) > 1:
                yield f'{path}:{line}: {m.group(1)}: parallel rows'
        for i, line in enumerate(lines):
            if re.search(r'&?Vec<bool>', COMMENT.sub('', line)):
                yield f'{path}:{i + 1}: a set as a row of flags: {line.strip()}'
    for f in all_functions:
        if re.search(r'for .*\{\n\s*if [^\n]*(?:==|!=|<|stops)[^\n]*\{\n\s*(?:return|\w+\.push)', f.text):
            yield f'{f.place}: a search by hand'
        own = parameters(f.signature)
        rows = [w for w in own if re.search(r'\[u(?:8|64)(?:; \d+)?\]$', w)]
        if rows and any(re.match(r'(?:n|many|words|bytes|count|size|len): ' + NUMBER, w) for w in own):
            yield f'{f.place}: a row with its length beside it'


def point_7(files, all_functions):
    """Switches on which step to run, and flags that choose one."""
    for f in all_functions:
        if re.search(r'match (?:\w+\.)*(?:mode|stage|phase|verb|shape|command|what)\b', f.text) and re.search(r'=> (?:Some\()?[\w:.]+\(', f.text):
            yield f'{f.place}: a switch on the step'
        if re.search(r'\b(?:is_tag|stops|print|exact|spaces|may_be_old): bool', f.signature):
            yield f'{f.place}: a flag that chooses'


def point_8(repo):
    """Lines of proofs, and answers that only say what the check tries by itself."""
    for name in sorted(os.listdir(os.path.join(repo, 'crates'))):
        folder = os.path.join(repo, 'crates', name, 'proofs')
        lines = alone = 0
        for at, _, files in os.walk(folder):
            for file in files:
                if file.endswith('.antt'):
                    with open(os.path.join(at, file)) as text:
                        for line in text:
                            lines += bool(line.strip())
                            alone += bool(re.search(r' = (?:search rules|grind \(arith, common_steps\)|grind arith|omega arith)$', line.rstrip())) and at != folder
        if lines:
            yield f'{name}: {lines} lines of proofs, {alone} answers of one bare tactic'


def main():
    arguments = argparse.ArgumentParser()
    arguments.add_argument('repo', nargs='?', default='.')
    arguments.add_argument('--point', type=int)
    arguments.add_argument('--list', action='store_true')
    given = arguments.parse_args()
    files = list(sources(given.repo))
    all_functions = [f for path, lines in files for f in functions(path, lines)]
    points = [point_1, point_2, point_3, point_4, point_5, point_6, point_7, None]
    for n, point in enumerate(points, 1):
        if given.point not in (None, n):
            continue
        found = list(point(files, all_functions)) if point else list(point_8(given.repo))
        what = (point or point_8).__doc__
        by = defaultdict(int)
        for place in found:
            crate = re.match(r'(?:one name: |five lines: )?(?:crates/)?(\w+)', place).group(1)
            by[crate] += 1
        print(f'{n}: {len(found)}: {what}')
        print('   ' + ', '.join(f'{crate} {count}' for crate, count in sorted(by.items())))
        if given.list:
            for place in found:
                print('   ' + place)


if __name__ == '__main__':
    main()
