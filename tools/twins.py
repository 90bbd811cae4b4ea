#!/usr/bin/env python3
"""Lists functions of crates/*/src that are alike but for names, types, numbers and texts (tests too).

A function's code, without its clauses, is read as tokens; each name is replaced by a number, in the order of first
use, and each number and text by a mark. Functions with the same row of tokens are a group of twins. Short ones, under
15 tokens in the body, or the number that is given, are left out."""
import glob, os, re, sys

KEYWORDS = set("as break const continue else enum extern fn for if impl in let loop match mod move mut pub ref return "
               "self Self static struct trait type unsafe use where while true false Some None Ok Err".split())
TOKEN = re.compile(r'b?"(?:\\.|[^"\\])*"|b?\'(?:\\.|[^\'\\])\'|\'[a-z_]+|[A-Za-z_][A-Za-z0-9_]*|\d[\d_a-fx]*|\S')


def functions(path):
    text = open(path, encoding='utf-8').read()
    lines = text.split('\n')
    kept = []
    for line in lines:
        bare = line.strip()
        if re.match(r'(//|ghost |requires\b|ensures\b|#!?\[)', bare):
            line = ';' if bare.endswith(';') and bare[0] in 're' else ''
        kept.append(re.sub(r'//.*', '', line))
    code = '\n'.join(kept)
    for m in re.finditer(r'\bfn\s+([A-Za-z_0-9]+)', code):
        depth, i, start = 0, m.end(), None
        while i < len(code):
            c = code[i]
            if c == ';' and depth == 0 and start is None:
                break
            if c in '([{':
                if c == '{' and depth == 0 and start is None:
                    start = i
                depth += 1
            elif c in ')]}':
                depth -= 1
                if depth == 0 and start is not None and c == '}':
                    yield m.group(1), code.count('\n', 0, m.start()) + 1, code[m.end():start], code[start:i + 1]
                    break
            i += 1


def shape(text, names):
    out = []
    for t in TOKEN.findall(text):
        if t in KEYWORDS or not re.match(r'[A-Za-z_0-9"\']|b["\']', t):
            out.append(t)
        elif re.match(r'\d', t):
            out.append('#')
        elif t[0] in '"\'' or t[:2] in ('b"', "b'"):
            out.append('$')
        else:
            out.append('n%d' % names.setdefault(t, len(names)))
    return out


def main():
    os.chdir(os.path.join(os.path.dirname(os.path.abspath(__file__)), '..'))
    least = int(sys.argv[1]) if len(sys.argv) > 1 else 15
    groups = {}
    for path in sorted(glob.glob('crates/*/src/**/*.rt', recursive=True)):
        for name, line, head, body in functions(path):
            names = {}
            tokens = shape(body, names)
            if len(tokens) >= least:
                groups.setdefault(tuple(tokens), []).append('%s:%d %s' % (path, line, name))
    twins = [g for g in groups.values() if len(g) > 1]
    print('%d groups, %d functions' % (len(twins), sum(map(len, twins))))
    for g in sorted(twins):
        print('; '.join(g))


main()
