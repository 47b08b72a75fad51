#!/usr/bin/env python3
"""Counts the places of docs/DESIGN-PASS.md's points in crates/*/src, by form alone.

usage: places.py [--list] [FOLDER]     FOLDER is a checkout, here by default; --list prints each place
What it finds is looked through by hand: that a place has the form does not say that another form is plainer.
"""
import collections
import glob
import os
import re
import sys

LIST = '--list' in sys.argv
FOLDERS = [a for a in sys.argv[1:] if not a.startswith('-')]
TOP = FOLDERS[0] if FOLDERS else '.'


def files():
    for path in sorted(glob.glob(os.path.join(TOP, 'crates/*/src/**/*.rt'), recursive=True)):
        with open(path, encoding='utf-8') as f:
            text = f.read()
        yield os.path.relpath(path, os.path.join(TOP, 'crates')).replace('/src', ''), re.sub(r'//[^\n]*', '', text)


def closing(text, at, pair):
    depth = 0
    for i in range(at, len(text)):
        if text[i] == pair[0]:
            depth += 1
        elif text[i] == pair[1]:
            depth -= 1
            if depth == 0:
                return i
    return len(text)


def functions():
    """File, name, parameters, clauses and body of each function."""
    for path, text in files():
        for m in re.finditer(r'\bfn (\w+)(<[^(]*>)?\(', text):
            end = closing(text, m.end() - 1, '()')
            head_end, at = end, end
            while True:
                rest = text[at + 1:]
                brace = re.search(r'[{;]', rest)
                if not brace or brace.group() == ';':
                    break
                start = at + 1 + brace.start()
                clause = re.search(r'(requires|ensures)( \w+)?\s*$', text[:start])
                stop = closing(text, start, '{}')
                if clause and clause.end() == start or re.search(r'(requires|ensures)[ \w]*$', text[max(0, start - 40):start]):
                    at = stop
                    continue
                yield path, m.group(1), text[m.end():end], text[head_end + 1:start], text[start + 1:stop]
                break


FUNCTIONS = list(functions())


def show(point, what, places):
    places = list(places)
    print(f'{point}  {len(places):3}  {what}')
    if LIST:
        for place in places:
            print(f'          {place}')


def lines(pattern):
    return [f'{path}: {m.group(0).strip()}' for path, text in files() for m in re.finditer(pattern, text, re.M)]


def structs():
    for path, text in files():
        for m in re.finditer(r'\bstruct (\w+)[^{;(]*\{', text):
            yield path, m.group(1), text[m.end():closing(text, m.end() - 1, '{}')]


def named(test):
    return [f'{path}: {name}' for path, name, parameters, clauses, body in FUNCTIONS if test(name, parameters, clauses, body)]


def arms_only(body, value):
    """The body is one match, each arm of which is `value`."""
    m = re.fullmatch(r'\s*(?:let [^;]*;\s*)*match [^{]*\{(.*)\}\s*', body, re.S)
    if not m:
        return False
    arms = re.split(r'=>', m.group(1))
    return len(arms) > 2 and all(re.match(rf'\s*(?:{value})\s*(,|\}}|$)', arm) for arm in arms[1:])


def shape(parameters, clauses, body):
    """A function's code with its names, numbers and texts replaced in the order in which they come."""
    seen = {}
    text = parameters + '|' + body
    out = []
    for token in re.findall(r'b?"(?:[^"\\]|\\.)*"|b\'.*?\'|\d[\w_]*|\w+|[^\s\w]', text):
        if re.match(r'b?"|b\'|\d|\w', token) and token not in KEYWORDS:
            token = seen.setdefault(token, f'${len(seen)}')
        if token != ',':
            out.append(token)
    return ' '.join(out)


KEYWORDS = set('let mut match if else while for in return fn pub as usize u8 u16 u32 u64 bool self'.split()) - {'u8', 'u16', 'u32', 'u64'}


def twins():
    groups = collections.defaultdict(list)
    for path, name, parameters, clauses, body in FUNCTIONS:
        if len(body.split()) >= 6:
            groups[shape(parameters, clauses, body)].append(f'{path}: {name}')
    return [' = '.join(g) for g in groups.values() if len(g) > 1]


def facts():
    """Facts of `requires` that stand in three or more functions' contracts."""
    count = collections.Counter()
    for path, name, parameters, clauses, body in FUNCTIONS:
        crate = path.split('/')[0]
        for m in re.finditer(r'requires[ \w]*\{', clauses):
            text = clauses[m.end():closing(clauses, m.end() - 1, '{}')]
            for fact in re.split(r'×', text):
                fact = ' '.join(fact.replace('.now', '').replace('.old', '').split())
                while fact.startswith('(') and closing(fact, 0, '()') == len(fact) - 1:
                    fact = fact[1:-1].strip()
                count[crate, fact] += 1
    return [f'{crate}: {fact} ({n})' for (crate, fact), n in sorted(count.items()) if n >= 3]


def together():
    """Three or more parameters that stand side by side in three or more functions of a crate."""
    count = collections.defaultdict(set)
    for path, name, parameters, clauses, body in FUNCTIONS:
        crate = path.split('/')[0]
        ps = [' '.join(p.split()) for p in parameters.split(',') if ':' in p]
        for size in range(3, len(ps) + 1):
            for i in range(len(ps) - size + 1):
                count[crate, tuple(ps[i:i + size])].add((path, name))
    best = {k: v for k, v in count.items() if len(v) >= 3}
    out = []
    for (crate, ps), v in sorted(best.items()):
        if not any(c == crate and len(q) > len(ps) and ' '.join(ps) in ' '.join(q) for (c, q) in best):
            out.append(f'{crate}: {", ".join(ps)} ({len(v)})')
    return out


SLICE = re.compile(r'&(mut )?\[')
BESIDE = re.compile(r'\b(n|used|begun|size|from|end|at|half|start|to): usize')

show('1', 'structs with a flag among their fields',
     (f'{p}: {n}' for p, n, fields in structs() if re.search(r': bool\b', fields)))
show('1', 'structs with a number for a refusal', (f'{p}: {n}' for p, n, fields in structs() if re.search(r'\bnumber: u8', fields)))
show('1', 'functions that answer a number for a refusal or a kind',
     named(lambda n, p, c, b: re.match(r'\s*->\s*u8\b', c) or re.match(r'\s*->\s*u64\b', c) and re.search(r'number', n)))
show('1', 'constants that are numbers of refusals', lines(r'^pub const [A-Z]+: u8'))
show('1', 'enums with a variant for no value', lines(r'^    (Unknown|Bad),$'))
show('1', 'functions that take a number for a kind', named(lambda n, p, c, b: re.search(r'\b(number|kind): u(8|64)', p)))
show('1', 'numbers that say that there is no value', lines(r'^.*(return 256|nth: 512|else \{ 256 \}).*$'))
show('2', 'groups of functions with the same code but for names, types and constants', twins())
show('3', 'loops by while', lines(r'^\s*while .*$'))
show('4', 'equality: functions that are a match with true and false alone', named(lambda n, p, c, b: arms_only(b, 'true|false')))
show('4', 'conversion: functions that are a match to numbers or texts alone',
     named(lambda n, p, c, b: arms_only(b, r'\d+|(say|fail)\(rt, "[^"]*"\)')))
show('4', 'conversion: functions that are one cast', named(lambda n, p, c, b: re.fullmatch(r'\s*\w+ as \w+\s*', b)))
show('5', 'facts that stand in three or more contracts of a crate', facts())
show('5', 'three or more parameters that three or more functions of a crate take side by side', together())
show('6', 'functions that take a length or a place beside a slice', named(lambda n, p, c, b: SLICE.search(p) and BESIDE.search(p)))
show('7', 'matches that choose a step', lines(r'^.*match (sought|aim|round|workers|kind|direction|marks|program)\b.*$'))
