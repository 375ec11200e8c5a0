#!/usr/bin/env python3
"""Counts the places of docs/DESIGN-PASS.md in the sources: `tools/places.py [POINT..] [--list]`.

A place is what a rule below finds: whether it is to be changed is for a reader to say. --list prints each one."""
import re
import sys
from collections import defaultdict
from pathlib import Path

TOP = Path(__file__).resolve().parent.parent
KINDS_OF_NUMBER = r'(?:u8|u16|u32|u64|usize)'
FOUND = defaultdict(list)


def sources():
    for path in sorted(TOP.glob('crates/*/src/**/*.rt')):
        yield path.relative_to(TOP / 'crates'), path.read_text(encoding='utf-8')


def plain(text):
    """A file without its comments."""
    return re.sub(r'(?m)^\s*//.*$', '', text)


def functions(text):
    """Name, parameters, contract and body of each function."""
    for m in re.finditer(r'(?m)^\s*(?:pub )?(?:unsafe )?(?:extern "C" )?fn (\w+)[^(]*\(', text):
        at, depth = m.end(), 1
        while depth:
            depth += {'(': 1, ')': -1}.get(text[at], 0)
            at += 1
        params = text[m.end():at - 1]
        # contracts stand in braces of their own, one a line; the body is the block behind them
        lines, contract, body, opened = text[at:].split('\n'), [], [], 0
        for line in lines:
            if not opened and re.match(r'\s*(requires|ensures)\b', line):
                contract.append(line.strip())
                continue
            body.append(line)
            opened += line.count('{') - line.count('}')
            if opened <= 0 and '}' in line:
                break
        yield m.group(1), ' '.join(params.split()), contract, '\n'.join(body)


def found(point, what, path, name):
    FOUND[(point, what)].append(f'{path}: {name}')


def shape(body):
    """A body with its names and numbers taken out, the words of the language left in."""
    words = r'\b(?!(?:if|else|while|for|in|match|return|let|mut|as|true|false|fn|Some|None|Ok|Err)\b)[A-Za-z_]\w*\b'
    body = re.sub(r"b'(?:\\.|[^'])'|b\"[^\"]*\"", '0', body)
    return re.sub(r'\s+', ' ', re.sub(r'\b0x[0-9a-f_]+|\b\d[\d_]*', '0', re.sub(words, 'x', body)))


def point_1(path, text):
    for name in re.findall(r'(?m)^\s*(?:pub )?enum (\w+)', text):
        found(1, 'enums', path, name)
    for name, fields in re.findall(r'struct (\w+)[^;{(]*\{([^}]*)\}', text):
        if re.search(r': (bool|u64),', fields) and len(re.findall(r'(?m)^\s*(?:pub )?\w+:', fields)) == 2:
            found(1, 'structs of a flag or number and a value', path, name)
    for name, params, _, _ in functions(text):
        if re.search(r'\w+: bool, value: &\[u8\]', params):
            found(1, 'parameters of a flag and a value', path, name)
    for name in re.findall(rf'(?m)^\s*(?:pub )?const (\w+): {KINDS_OF_NUMBER} = \d+;', text):
        found(1, 'constants that are small numbers', path, name)


def point_3(path, text):
    for name, _, _, body in functions(text):
        for test in re.findall(r'\bwhile (.*?) \{', body):
            found(3, 'while', path, f'{name}: {test}')


def point_4(path, text):
    for name, _, _, body in functions(text):
        if re.search(r'\b(256|BYTE|HALF|WORD)\b \*|\* (BYTE|HALF|WORD)\b|/ 256|% 256', body):
            found(4, 'bytes and numbers', path, name)
        if len(re.findall(r'\(\w+(?:\.\w+)? == [\w\'\:]+\)|\(\w+ == b\'.\'\)', body)) >= 2 and '|' in body:
            found(4, 'a byte or a kind among some', path, name)
        if re.search(r'spaced: (\w+)\.spaced,\s*at: \1\.at', body):
            found(4, 'copies field by field', path, name)
        if re.search(r'if (\w+) <=? (\w+).*\{ (\1|\2)\b.*\} else \{', body):
            found(4, 'minimum, difference or sum that stops', path, name)
    for _ in re.findall(r'io::(?:write_all|print_decimal)', text):
        found(4, 'printing', path, 'io')


def point_5(path, text):
    for name, params, contract, _ in functions(text):
        if all(re.search(rf'\b{p}: &\[u8\]', params) for p in ('pool', 'tree', 'text')):
            found(5, 'pool, tree and text', path, name)
        elif all(re.search(rf'\b{p}: &\[u8\]', params) for p in ('tree', 'text')):
            found(5, 'tree and text', path, name)
        for line in contract:
            if line.startswith('requires'):
                for fact in re.split(r' × ', re.sub(r'^requires \w* ?\{ | \}$', '', line)):
                    FOUND[(5, 'facts')].append(f'{path.parts[0]}: {fact.strip("() ")}')


def point_6(path, text):
    for name, fields in re.findall(r'struct (\w+)[^;{(]*\{([^}]*)\}', text):
        if re.search(r'\[\w+; \w+\]', fields) and 'len' in fields:
            found(6, 'a buffer with a length', path, name)
    for part in re.findall(r'&(?:mut )?\w+\[\.\.\w*len\]', text):
        found(6, 'parts up to a length', path, part)
    for name, _, _, body in functions(text):
        if re.search(r'(row|places|rules|nodes) (%|/) BYTE', body):
            found(6, 'numbers packed into one another', path, name)


def point_7(path, text):
    for name, _, _, body in functions(text):
        if len(re.findall(r'if \w+(?:\.kind)? == [\w:]+ \{\s*return \w+\(', body)) >= 2:
            found(7, 'a switch by ifs', path, name)


def main():
    points = [int(a) for a in sys.argv[1:] if a.isdigit()] or range(1, 9)
    shapes = defaultdict(list)
    for path, text in sources():
        text = plain(text)
        for name, params, contract, body in functions(text):
            if len(body.split('\n')) > 3:
                shapes[shape(body)].append(f'{path}: {name}')
        for point in (point_1, point_3, point_4, point_5, point_6, point_7):
            point(path, text)
    for names in shapes.values():
        if len(names) > 1:
            FOUND[(2, 'functions of one shape')] += [f'{n}' for n in names]
            FOUND[(2, 'shapes of two functions or more')].append(' '.join(names))
    facts = defaultdict(int)
    for fact in FOUND.pop((5, 'facts'), []):
        facts[fact] += 1
    FOUND[(5, 'facts in three contracts of a crate or more')] = [f'{f} ({n})' for f, n in facts.items() if n > 2]
    for crate in sorted(TOP.glob('crates/*')):
        for kind in ('Answers', 'Invariants'):
            for path in crate.glob(f'proofs/**/{kind}.antt'):
                FOUND[(8, f'{kind}.antt')].append(str(path.relative_to(TOP / 'crates')))
        for path in crate.glob('proofs/**/Answers.antt'):
            FOUND[(8, 'answers')] += re.findall(r'(?m)^pub ([\w-]+) :', path.read_text(encoding='utf-8'))
    for (point, what), places in sorted(FOUND.items()):
        if point in points:
            print(f'{point}  {len(places):4d}  {what}')
            if '--list' in sys.argv:
                for place in places:
                    print(f'            {place}')


main()
