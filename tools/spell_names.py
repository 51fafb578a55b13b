#!/usr/bin/env python3
"""Brings the repository's own names to today's spelling: definitions, lemmas, fields and constructors that are declared in
crates/*/specs and crates/*/proofs are in snake case. Run it once, at the top, behind the toolchain's own port.py.

A lemma whose new name is that of a definition, or of anything else in a file that it stands in, gets `_lem` behind it.
Functions of src/, goals' labels, strings and comments' plain words keep their spelling; a must-fail edit of an .antt file goes along.
It prints what it renamed.
"""
import collections
import os
import re
import sys

NAME = r'[^\s(){}.;,@"«»]+'
WORD = re.compile(NAME)
SIGNATURE = re.compile(r'(?m)^[ \t]*(?:(?:pub|abbrev|unfoldable) )*((?:' + NAME + r' )*?' + NAME + r') :(?=\s)')
SUITE = re.compile(r'\b(?:data|record) +(?:pub +)?(' + NAME + ')')
WORDS = {'data', 'record', 'module', 'let', 'where', 'use', 'pub', 'abbrev', 'unfoldable', 'in', 'elim', 'rw', '|', '_', 'λ'}
CLAUSE = re.compile(r'(?:requires|ensures)\s*\*?\s*(?:\w+\s*)?\{|ghost\s+(?:\w+\s*(?::\s*|=\s*))\{')
USE = re.compile(r'ghost\s+use\b[^;]*;')


def texts(kind):
    for folder, dirs, files in os.walk('crates'):
        dirs[:] = sorted(d for d in dirs if d != 'out')
        for f in sorted(files):
            if f.endswith(kind):
                yield os.path.join(folder, f)


def read(path):
    with open(path, encoding='utf-8') as f:
        return f.read()


def bare(text):
    return re.sub(r'(?<![^\s(){}.;,@"«»])--[^\n]*', '', text)


def in_snake_case(name):
    name = re.sub(r'(?<=[a-z0-9])([A-Z])', lambda m: '_' + m[1].lower(), name)
    return name.replace('-', '_').replace('′', "'")


def walked(path):
    return path.endswith('/Proof.antt')


def spans(text):
    """The places of a .rt file's clauses and `ghost use` items."""
    for m in USE.finditer(text):
        yield m.start(), m.end()
    for m in CLAUSE.finditer(text):
        depth, at = 1, m.end()
        while depth and at < len(text):
            depth += {'{': 1, '}': -1}.get(text[at], 0)
            at += 1
        yield m.end(), at


def of_antt(edit):
    return re.search(r'(?m)^file: .*\.antt$', edit) is not None


def turned(name):
    return name[0].islower() and re.search(r"[a-z0-9][A-Z]|-|′", name) is not None


def main():
    antt = {p: read(p) for p in texts('.antt')}
    rt = {p: read(p) for p in texts('.rt')}
    own, borrowed = collections.defaultdict(set), set()
    for p, text in antt.items():
        code = bare(text)
        for m in re.finditer(r'use ([^\s;{]+)\{([^}]*)\}', code):
            if not m[1].startswith('Rattle.'):
                borrowed.update(x.strip().split(' as ')[0] for x in m[2].split(','))
        if walked(p):
            own.update({n: own[n] | {p} for n in re.findall(r'(?m)^pub (\S+-spec) :', code)})
            continue
        for m in SIGNATURE.finditer(code):
            for n in m[1].split():
                if n not in WORDS:
                    own[n].add(p)
        for n in SUITE.findall(code):
            own[n].add(p)
    names = sorted(n for n in own if turned(n) and n not in borrowed)
    # names whose new spelling something else has already: in any file where both stand
    words = {p: set(WORD.findall(bare(t))) for p, t in antt.items()}
    for p, t in rt.items():
        code = re.sub(r'//[^\n]*', '', t)
        # a function's name cannot be meant in a clause; a parameter's, a variable's and a field's can
        words[p] = set(re.findall(r'\b(\w+)\s*:(?!:)|\blet (?:mut )?(\w+)', code) and sum(re.findall(r'\b(\w+)\s*:(?!:)|\blet (?:mut )?(\w+)', code), ()))
        words[p] |= set(WORD.findall(' '.join(t[a:b] for a, b in spans(t))))
    have = collections.defaultdict(set)
    for p, ws in words.items():
        for w in ws:
            have[w].add(p)
    new = {}
    for n in sorted(names, key=lambda n: ('-' in n, n)):
        it = in_snake_case(n)
        met = [p for p in have[it] & have[n] if not walked(p)]
        if '-' not in n and it in own:
            new[it] = it + '_lem'  # a lemma that port.py brought to its definition's new name
        elif it in new.values() or it in own or it in borrowed or met:
            it += '_lem'
        new[n] = it
    # bound variables and names given at an import
    for p, text in antt.items():
        if not walked(p):
            for n in WORD.findall(bare(text)):
                if re.fullmatch(r"[a-z]{2,}[a-z0-9']*[A-Z]\w*'*", n) and n not in borrowed:
                    new.setdefault(n, in_snake_case(n))
    new['◌orElse◌'] = '◌or_else◌'

    def word(m, steps):
        it = new.get(m[0], m[0])
        # behind a dot of a proof that walks the code stands a step's name, which is that of a function, or a field's
        return it[:-4] if steps and it.endswith('_lem') and m.string[m.start() - 1 : m.start()] == '.' else it

    def turn(text, steps=False):
        text = WORD.sub(lambda m: word(m, steps), text)
        return re.sub(r'`([^`\s]+)`', lambda m: '`' + '.'.join(new.get(n, n) for n in m[1].split('.')) + '`', text)

    for p, t in antt.items():
        t2 = turn(t, walked(p))
        if t2 != t:
            with open(p, 'w', encoding='utf-8') as f:
                f.write(t2)
    for p, t in rt.items():
        at, out = 0, []
        for a, b in sorted(spans(t)):
            if a < at:
                continue
            out += [t[at:a], turn(t[a:b])]
            at = b
        out.append(t[at:])
        t2 = ''.join(out)
        if t2 != t:
            with open(p, 'w', encoding='utf-8') as f:
                f.write(t2)
    for p in texts('.edit'):
        t = read(p)
        t2 = ''.join(turn(line) if re.match('(old|new): ', line) and of_antt(t) else line for line in t.splitlines(True))
        if t2 != t:
            with open(p, 'w', encoding='utf-8') as f:
                f.write(t2)
    for n in sorted(new):
        print(n, new[n])


if __name__ == '__main__':
    main()
