#!/usr/bin/env python3
"""Lists the places of src/ at a commit that docs/DESIGN-PASS.md counts, point by point.

    python3 tools/places.py [COMMIT]        the lists, with a count for each (COMMIT is HEAD where none is given)
    python3 tools/places.py --counts [COMMIT]   the counts alone

Tests (tests.rt and the modules of tests) are left out.
"""
import collections
import itertools
import re
import subprocess
import sys


def git(*words):
    return subprocess.run(['git', *words], capture_output=True, text=True, check=True).stdout


def sources(commit):
    """The text of each file of code, by its path, without its tests."""
    names = git('ls-tree', '-r', '--name-only', commit).split()
    found = {}
    for name in names:
        if re.match(r'crates/\w+/src/.*\.rt$', name) and not name.endswith('tests.rt'):
            text = git('show', f'{commit}:{name}')
            found[name] = text.split('#[cfg(test)]\nmod tests {')[0]
    return found


def lines(files, pattern, but=None):
    for name, text in files.items():
        for number, line in enumerate(text.split('\n'), 1):
            bare = line.strip()
            if bare.startswith(('//', 'ghost use', 'use ')):
                continue
            if re.search(pattern, line) and not (but and re.search(but, line)):
                yield f'{name}:{number}: {bare}'


FN = re.compile(r"^[ ]*(?:pub(?:\(crate\))? )?fn (\w+)(?:<[^{;]*?>)?\(([^)]*)\)", re.M)


def functions(files):
    """Each function with its parameters and its body."""
    for name, text in files.items():
        for m in FN.finditer(text):
            start = re.compile(r'^\s*\{\s*$|\) \{$|> \{$|[\w\]] \{$|^\s*\{\}$', re.M).search(text, m.end() - 1)
            if not start:
                continue
            i = text.index('{', start.start()) if '{' in start.group() else start.end()
            depth = 0
            for j in range(i, len(text)):
                depth += (text[j] == '{') - (text[j] == '}')
                if depth == 0:
                    break
            crate = name.split('/')[1]
            parameters = [p.strip() for p in m.group(2).split(',') if ':' in p]
            yield f'{crate}::{m.group(1)}', parameters, text[i:j + 1]


def shape(body):
    """A body with each name and number told by its first place, so that twins are alike."""
    names = {}
    words = re.findall(r'\w+|[^\w\s]', re.sub(r'//.*', '', body))
    kept = {'if', 'else', 'match', 'for', 'in', 'while', 'let', 'return', 'mut', 'self', 'loop', 'as', 'Some', 'None', 'Ok', 'Err'}
    return tuple(w if w in kept or not re.match(r'\w', w) else names.setdefault(w, f'#{len(names)}') for w in words)


def twins(files):
    groups = collections.defaultdict(list)
    for name, _, body in functions(files):
        s = shape(body)
        if len(s) >= 14:
            groups[s].append(name)
    for group in groups.values():
        if len(group) > 1:
            yield ' = '.join(group)


def facts(files):
    """Clauses that stand in three functions or more, whatever their value is called."""
    count = collections.Counter()
    for text in files.values():
        for m in re.finditer(r'^\s*(?:requires|ensures)[^{\n]*\{ (.*) \}$', text, re.M):
            count[re.sub(r'\b[\w.]+\.(now|old|new|entry)\b', r'_.\1', m.group(1))] += 1
    for fact, n in count.most_common():
        if n >= 3:
            yield f'{n} times: {fact}'


def together(files):
    """Two parameters that stand side by side in four functions or more."""
    pairs = collections.defaultdict(list)
    for name, parameters, _ in functions(files):
        plain = sorted({re.sub(r"^mut |'\w+ ", '', p) for p in parameters})
        for pair in itertools.combinations(plain, 2):
            pairs[pair].append(name)
    for pair, names in sorted(pairs.items(), key=lambda x: -len(x[1])):
        if len(names) >= 4:
            yield f'{len(names)} functions: {pair[0]}, {pair[1]}'


SECTIONS = [
    ('1a own enums, each read', lambda f: lines(f, r'^(pub )?enum ')),
    ('1b numbers for kinds and refusals', lambda f: lines(f, r'\b(kind|tag|answer|number|layer|file|code|byte): u(8|16)\b|fn \w*(number|kind|tag|layer)\w*\(.*-> u(8|16)|match raw\.tag')),
    ('1c numbers that stand for none', lambda f: lines(f, r'\b(OFF|NOBODY|NO_ORDER)\b')),
    ('1d a flag beside a value', lambda f: lines(f, r'^\s*(pub )?\w+: bool,$')),
    ('1e an Option or a Result handed on by hand', lambda f: lines(f, r'let (Some|Ok)\(.*\) = .* else|None => None|Err\((short|e)\) => Err')),
    ('2 bodies alike but for names, types and numbers', twins),
    ('3 loops over a range of numbers', lambda f: lines(f, r'for (\w+|_) in .*\.\.')),
    ('4a impls of From, TryFrom, Display, comparison, copying', lambda f: lines(f, r'^\s*impl.* (From|TryFrom|fmt::Display|PartialEq|Ord|Clone|Copy)\b')),
    ('4b numbers cast, or taken apart and put together by hand', lambda f: lines(f, r'\* 256|/ 256|% 256| as (u8|u16|u32|usize|char)\b')),
    ('4c texts put together', lambda f: lines(f, r'format!\(|write!\(')),
    ('5a facts in three contracts or more', facts),
    ('5b parameters that travel together', together),
    ('6 arrays of a fixed size in a type, and counts beside', lambda f: lines(f, r'^\s*(pub(\(crate\))? )?\w+: (\[.*; \d+\]|ArrayVec.*),$|^\s*(pub(\(crate\))? )?(count|len|at|place): usize,$')),
    ('7 a choice of the step to run, function values', lambda f: lines(f, r'\bmatch (call|raw\.tag|tag)\b|\bdyn \w|\bfn\(|: (Fn|FnMut|FnOnce)\(|impl Fn')),
]


def main():
    words = [w for w in sys.argv[1:] if w != '--counts']
    files = sources(words[0] if words else 'HEAD')
    for title, find in SECTIONS:
        found = list(find(files))
        print(f'{title}: {len(found)}')
        if '--counts' not in sys.argv:
            for place in found:
                print(f'    {place}')
    proofs = git('ls-tree', '-r', '--name-only', words[0] if words else 'HEAD').split()
    antt = [n for n in proofs if '/proofs/' in n]
    size = sum(git('show', f'{words[0] if words else "HEAD"}:{n}').count('\n') for n in antt)
    print(f'8 files of proofs: {len(antt)}, lines: {size}')


main()
