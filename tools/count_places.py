#!/usr/bin/env python3
"""Counts the places of the eight points of docs/DESIGN-PASS.md in crates/*/src, and answers and lemmas in crates/*/proofs.

usage: python3 tools/count_places.py [-v | -c] [COMMIT]    of a commit, else of the working tree; -v: a line a place, -c: a table by crates

A rule goes by the text alone and leaves no place out: whether one stays, and why, is said beside it and in docs/DESIGN-PASS.md.
"""
import collections
import difflib
import glob
import io
import re
import subprocess
import sys
import tarfile

KEYWORDS = set('as break const continue else enum false fn for if impl in let loop match mut pub ref return self struct true type use while'.split())
TOKEN = re.compile(r"b?\"(?:\\.|[^\"])*\"|b?'(?:\\.|[^'])'|'\w+|[A-Za-z_]\w*(?:::\w+)*|\d[\w.]*\w|\d|[-=]>|\.\.=?|&&|\|\||[=!<>+-]=|<<|>>|\S")
INTEGER = r'\b(?:usize|u8|u16|u32|u64|Tick)\b'


def tree(commit):
    if not commit:
        return {p: open(p, encoding='utf-8').read() for p in glob.glob('crates/*/**/*', recursive=True) if p.endswith(('.rt', '.antt')) and '/out/' not in p}
    packed = subprocess.run(['git', 'archive', commit, 'crates'], check=True, stdout=subprocess.PIPE).stdout
    with tarfile.open(fileobj=io.BytesIO(packed)) as t:
        return {m.name: t.extractfile(m).read().decode() for m in t.getmembers() if m.name.endswith(('.rt', '.antt'))}


def closing(text, i):
    """Behind the bracket that closes the one at i."""
    depth = 0
    for m in re.compile(r'[(\[{)\]}]').finditer(text, i):
        depth += 1 if m[0] in '([{' else -1
        if depth == 0:
            return m.end()
    return len(text)


def plain(text):
    return ' '.join(text.split())


def split_at(text, mark):
    """The parts of a text between the marks that stand in no bracket."""
    parts, depth = [''], 0
    for c in text:
        depth += (c in '([{<') - (c in ')]}>')
        parts = parts + [''] if c == mark and depth == 0 else parts[:-1] + [parts[-1] + c]
    return [p for p in map(plain, parts) if p]


class Function:
    """A function: its name, comment, parameters, answer, facts in clauses and body, each on one line, and where it stands."""

    def __init__(self, path, text, m):
        above = text[:m.start()].rsplit('\n\n', 1)[-1].split('\n')
        self.path, self.name, self.line = path, m[1], text.count('\n', 0, m.start()) + 1
        self.doc = plain(' '.join(l.strip()[2:] for l in above if l.strip().startswith('//')))
        text = re.sub(r'//[^\n]*', '', text[m.start():])
        at = text.index('(', m.end() - m.start())
        self.params = [p for p in split_at(text[at + 1:closing(text, at) - 1], ',') if ':' in p]
        head = re.compile(r'(?:[^{;\[]|\[[^\]]*\])*?(?=\s*(?:\brequires\b|\bensures\b|\{|;))', re.S).match(text, closing(text, at))
        self.result, at, self.facts = plain(head[0]).replace('-> ', ''), head.end(), set()
        while (c := re.compile(r'\s*(?:requires|ensures)\s*\w*\s*(?=\{)').match(text, at)):
            at = closing(text, c.end())
            self.facts |= {f[1:-1] if f[0] == '(' and closing(f, 0) == len(f) else f for f in split_at(text[c.end() + 1:at - 1], '×')}
        start = text.find('{', at)
        body = text[start + 1:closing(text, start) - 1]
        self.lines, self.body = len(body.strip().split('\n')), plain(body)
        self.shape = ['N' if t[0].isdigit() else 'I' if re.match(r'[A-Za-z_]', t) and t not in KEYWORDS and t[-1] not in '"\'' else t for t in TOKEN.findall(body)]


def read(files):
    """The functions of crates/*/src, and the structs and enums as (path, line, kind, name, fields)."""
    functions, types = [], []
    for path, text in sorted(files.items()):
        if re.match(r'crates/\w+/src/', path):
            # the functions of a trait and of its impls are left out: their names and shapes are the trait's
            apart = [(m.start(), closing(text, m.end() - 1)) for m in re.finditer(r'^(?:impl\b[^{\n]* for |(?:pub )?trait )[^{\n]*\{', text, re.M)]
            found = re.finditer(r'^ *(?:pub(?:\(\w+\))? )?(?:extern "C" )?fn (\w+)', text, re.M)
            functions += [Function(path, text, m) for m in found if not any(i < m.start() < j for i, j in apart)]
            for m in re.finditer(r'^(?:pub(?:\(\w+\))? )?(struct|enum) (\w+)[^{;(]*\{', text, re.M):
                types.append((path, text.count('\n', 0, m.start()) + 1, m[1], m[2], split_at(re.sub(r'//[^\n]*', '', text[m.end():closing(text, m.end() - 1) - 1]), ',')))
    return functions, types


def point_1(functions, types):
    for path, line, kind, name, fields in types:
        # an enum of a case with nothing or a number alone beside one that has something; a struct of a bool beside a value
        bare, full = [f for f in fields if re.fullmatch(r'\w+|\w+\(u8\)', f)], [f for f in fields if re.search(r'[({]', f)]
        if kind == 'enum' and bare and full and len(fields) > 1 or kind == 'struct' and len(fields) > 1 and re.search(r': bool\b', ' '.join(fields)):
            yield path, line, f'{kind} {name} {{ ' + ', '.join(fields) + ' }'
    for f in functions:
        # a function that answers the number of a question, or a number for none
        if f.result == 'u8' and re.search(r'return \d+;|[;}] 0$', f.body):
            yield f.path, f.line, f'{f.name} answers a number for what is wrong'
        elif re.fullmatch(INTEGER, f.result) and re.search(r'return 0;|return NO_\w+;|\{ 0 \} else|(?:Refused|Err)\(_\) => \d+', f.body):
            yield f.path, f.line, f'{f.name} answers a number for none'
        # a refusal by its number; a test of an answer for such a number, or for a flag; a table between numbers and cases
        for m in re.finditer(r'::Refused\(\d+\)|if !?(?:\w*fault|count|\w+\.(?:whole|failed))(?: [!=]= (?:0|NO_\w+))? \{', f.body):
            yield f.path, f.line, f'{f.name}: {m[0]}'
        if re.search(r'\b0 => \w+::\w+, 1 => |\w+::\w+ => 0, \w+::\w+ => 1,', f.body):
            yield f.path, f.line, f'{f.name}: a table between numbers and cases'
        # a number for a kind or a refusal, or a flag, as a parameter
        for p in f.params:
            if re.fullmatch(r'(?:kind|fault|number): u8|(?:read|whole|failed): bool', p):
                yield f.path, f.line, f'{f.name}({p})'


def point_2(functions, types):
    # bodies of four lines or more that have one shape, names and numbers aside, or nearly one; and 'The same ..' in a comment
    first = {}
    for i, f in enumerate(functions):
        near = None
        for g in functions[:i] if f.lines >= 4 else []:
            if near is None and g.lines >= 4 and abs(len(f.shape) - len(g.shape)) * 6 <= len(f.shape):
                alike = difflib.SequenceMatcher(None, f.shape, g.shape)
                near = g if alike.quick_ratio() > 0.9 and alike.ratio() > 0.9 else None
        if near:
            yield f.path, f.line, f'{f.name} has the shape of {near.name} in {near.path}'
        elif f.doc.startswith('The same'):
            yield f.path, f.line, f'{f.name}: {f.doc[:60]}'
    # structs of two fields or more that have the same names, enums of one shape
    for path, line, kind, name, fields in types:
        shape = kind, tuple(re.sub(r'\w+', 'I', f) if kind == 'enum' else f.split(':')[0].split()[-1] for f in fields)
        if len(fields) > 1 and first.setdefault(shape, name) != name:
            yield path, line, f'{kind} {name} has the shape of {first[shape]}'


def point_3(functions, types):
    # each while and loop, with what steps in it
    for f in functions:
        for m in re.finditer(r'\bwhile\b[^{]*|\bloop\b', f.body):
            body = f.body[m.end():closing(f.body, f.body.index('{', m.end()))]
            steps = re.findall(r'(\w+) [-+]= |(?<=; )(\w+) = \2 [-+] |(\w+) = \w+\(\3\.0 \+ 1\)', body)
            yield f.path, f.line, f'{f.name}: {plain(m[0])}, steps {", ".join(sorted({max(s) for s in steps})) or "nothing"}'


BY_HAND = {
    'least or greatest': r'if (\w+)(?:\.0)? <=? (\w+)(?:\.0)? \{ (?:\1 \} else \{ \2|\2 \} else \{ \1) \}',
    'a difference cut off at 0': r'if (\w+) < (\w+) \{ 0 \} else \{ \(?\1 - \2',
    'a bool as a number': r'\{ 1 \} else \{ 0 \}',
    'from least to most': r'if (\w+) < ([^{]+) \{ return false; \} \1 <= |if [\w.]+ <= (\w+) \{ \3 <= \w+ \} else \{ false \}',
    'equal to one of several': r'(\w+) == (\S+) \|\| \1 == ',
    'an entry or 0': r'if (\w+)\.len\(\) <= (\w+) \{ return 0; \} \1\[\2\]|if (\w+)\.len\(\) == 0 \{ return 0; \} \3\[',
    'a payload or a number': r'match \w+ \{ (?:[\w:]+\(\w+\) => [\w. ]+, [\w:]+(?:\(_\))? => \d+,|[\w:]+(?:\(_\))? => \d+, [\w:]+\(\w+\) => [\w. ]+,) \}',
    'entry by entry': r'\{ (?:let (\w+) = [^;]*; )?[\w.]+\[[^\]]*\] = (?:[\w.]+\[[^\]]*\]|0|\1); (?:\w+ [-+]= 1; )?\}',
    'field by field': r'(?:let (?:mut )?(\w+) = (\w+)\.\w+; )(?:let (?:mut )?\w+ = \2\.\w+; ){2,}',
    'digits': r'% 10\b',
    'numbers and bytes': r'\b(?:256|65536) \* |/ 256\b|% 256\b',
    'a conversion': r'^(?:\w+(?:\.0)? as \w+|\(\w+ % \d+\) as \w+)$',
}


def point_4(functions, types):
    # equality, order, conversion, copying and printing by hand
    for f in functions:
        for what, rule in BY_HAND.items():
            for m in re.finditer(rule, f.body):
                yield f.path, f.line, f'{f.name}: {what}: {m[0][:70]}'


def point_5(functions, types):
    # a fact that stands in the clauses of three functions or more
    facts, runs, having = collections.defaultdict(list), collections.defaultdict(list), collections.Counter()
    for f in functions:
        for fact in f.facts:
            facts[fact].append(f)
        params = [re.sub(r"&(?:'\w+ )?(?:mut )?|\bmut ", '', p) for p in f.params]
        having.update(params)
        for pair in zip(params, params[1:]):
            runs[pair].append(f)
    for fact, fs in sorted(facts.items()):
        if len(fs) >= 3:
            yield fs[0].path, fs[0].line, f'in {len(fs)} functions: {fact}'
    # two parameters side by side in three functions or more, and in three of four that have the rarer one; & and mut aside
    for pair, fs in runs.items():
        if len(fs) >= 3 and 4 * len(fs) >= 3 * min(having[p] for p in pair):
            yield fs[0].path, fs[0].line, f'in {len(fs)} functions: {pair[0]}, {pair[1]}'


def point_6(functions, types):
    for path, line, kind, name, fields in types:
        if kind == 'struct' and sum('[' in f for f in fields) > 1:
            yield path, line, f'struct {name}: arrays side by side'
    for f in functions:
        # arrays by value, but those of less than 100 bytes; a slice with a length beside it; a place in a list searched by a loop
        arrays = [p for p in f.params if re.search(r': \[', p) and not re.search(r': \[u8; \d\d?\]', p)]
        counts = [p for p in f.params if re.fullmatch(r'(?:count|len|length|entries|frames|width|n): (?:usize|u16)', p)]
        if arrays:
            yield f.path, f.line, f'{f.name}: by value {", ".join(arrays)}'
        if counts and re.search(r'[\[]', ' '.join(f.params)):
            yield f.path, f.line, f'{f.name}: a list with {", ".join(counts)}'
        if re.search(r'\b(?:while|loop|for)\b.*\breturn (?:[ijkn]|place);', f.body):
            yield f.path, f.line, f'{f.name}: searched by hand'


def point_7(functions, types):
    # a test of a flag that a struct keeps; two functions with the same arguments in two branches; functions as values
    flags = {x.split(':')[0].split()[-1] for t in types if t[2] == 'struct' for x in t[4] if x.endswith(': bool')} - {'whole', 'failed', 'level'}
    for f in functions:
        for m in re.finditer(r'if \w+\.(\w+) \{', f.body):
            if m[1] in flags:
                yield f.path, f.line, f'{f.name}: {m[0]}'
        for m in re.finditer(r'(?:\{|=>) ([\w:]+)\(([^()]*)\);?(?: return;)?(?: \} else \{| \}|, [^=]{1,20} =>) ([\w:]+)\(\2\)', f.body):
            if m[1] != m[3]:
                yield f.path, f.line, f'{f.name}: {m[1]} or {m[3]}'
        if re.search(r'\bdyn\b|\bfn ?\(', ' '.join(f.params) + f.result + f.body):
            yield f.path, f.line, f'{f.name}: a function as a value'


def proofs(files):
    """Point 8: the answers in proofs/F/Answers.antt, with their texts, and the lemmas in proofs/*.antt."""
    for path, text in sorted(files.items()):
        answers, lemmas = re.match(r'crates/\w+/proofs/.*Answers\.antt', path), re.match(r'crates/\w+/proofs/\w+\.antt', path)
        for m in re.finditer(r'^pub (\S+) : .*goal\..*$' if answers else r'^(?:  )?(?:pub )?([^\s:(){}]+) : ', text if answers or lemmas else '', re.M):
            said = plain(text[m.end():].split('\n\n')[0].partition(m[1])[2]) if answers else ''
            yield path, text.count('\n', 0, m.start()) + 1, ('answer ' if answers else 'lemma ') + m[1], said


def main(argv):
    files = tree(next((a for a in argv if not a.startswith('-')), ''))
    places = {n: list(rule(*read(files))) for n, rule in enumerate((point_1, point_2, point_3, point_4, point_5, point_6, point_7), 1)}
    told = list(proofs(files))
    texts = collections.Counter((p.split('/')[1], said) for p, _, what, said in told if said)
    places['8 answers'] = [x[:3] for x in told if x[2].startswith('answer')]
    places['8 lemmas'] = [x[:3] for x in told if x[2].startswith('lemma')]
    # answers of a crate whose text stands there three times or more
    places['8 repeated'] = [(p, l, f'{what}: {said[:80]}') for p, l, what, said in told if texts[p.split('/')[1], said] > 2]
    if '-c' in argv:
        by = {n: collections.Counter(p.split('/')[1] for p, _, _ in ps) for n, ps in places.items()}
        rows = [(f'`{c}`', [k[c] or '' for k in by.values()]) for c in sorted({c for k in by.values() for c in k})] + [('all', [len(ps) for ps in places.values()])]
        print('| Crate | ' + ' | '.join(map(str, places)) + ' |\n|' + '---|' * (len(places) + 1))
        print('\n'.join(f'| {c} | ' + ' | '.join(map(str, row)) + ' |' for c, row in rows))
        return
    for n, ps in places.items():
        print(f'{n}: {len(ps)} in {len({p.split("/")[1] for p, _, _ in ps})} crates')
        for path, line, what in ps if '-v' in argv else []:
            print(f'  {path[7:]}:{line}: {what}')


main(sys.argv[1:])
