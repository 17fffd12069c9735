#!/usr/bin/env python3
"""Counts the places of docs/DESIGN-PASS.md: one line for each place, and the counts for each point, kind and crate.

usage: python3 tools/design_places.py [TREE] [--point N] [--counts]

TREE is a checkout (default: this folder). --point shows one point alone, --counts the table alone. It reads the .rt files under
crates/*/src/ and the .antt files under crates/*/proofs/ as text, and changes nothing. A place is what a rule below finds; whether it
is a fault is said on the page.
"""
import argparse
import collections
import difflib
import glob
import os
import re

NUMBER = r'(?:u8|u16|u32|u64|usize|i8|i16|i32|i64|isize|f32|f64)'
KIND_NAMES = r'(?:mode|depth|bit_depth|letter)'
KIND_CONSTS = r'(?:NONE|FAST|STANDARD|MODE_FAST|BYTE_DEPTH|TEN|TWELVE)'
RULES = {
    '1a': 'own enum of the shape of Option or Result: two variants, one with a value',
    '1b': 'struct with a flag or a refusal beside a value',
    '1c': 'function that answers a refusal as a number, 0 for none',
    '1d': 'a refusal handed on by hand: `if x != 0 { return x }`, `let V(x) = .. else`, a match that hands it on',
    '1e': 'a refusal written as a number',
    '1f': 'bool parameter',
    '1g': 'number for a kind: parameter, field or constant (mode, depth, letter)',
    '2a': 'functions of one name in a crate (16 at its end left out): a name is a place',
    '2b': 'functions of a crate with other names that are alike but for types, numbers and names: a group is a place',
    '2c': 'types that are alike but for a number type: a group is a place',
    '2d': 'constants with one name and value in several files: a group is a place',
    '2e': 'functions of two crates that are alike in the same way: a group is a place',
    '3a': 'while or loop',
    '3b': 'for over a range whose counter indexes or cuts a list, or runs up to a list\'s length',
    '3c': 'for over another range: its counter is a number, or a place for a call (no place of point 3, but counted)',
    '4a': 'order and distance by hand: lesser, larger, apart, absolute, clamp',
    '4b': 'copy, fill and comparison of lists by hand',
    '4c': 'conversion field by field, place by place or number by number',
    '4d': 'equality by hand: two fields compared with !=, x != x for NaN',
    '4e': 'printing by hand: a function that prints one value',
    '5a': 'requires clause that stands in three or more functions: a clause is a place',
    '5b': 'parameters that travel together in three or more functions, the widest first, each counted once: a group is a place',
    '5c': 'a type of this repository with its list or its length behind it, in three or more functions, whatever the names',
    '6a': 'struct with an array and a count beside it',
    '6b': 'parameters: a list with a count, or with a place and a count',
    '6c': 'parallel lists: two or more lists with one index',
    '6d': 'constants that name places of a list of numbers: a list is a place',
    '7a': 'match on a number or a letter that chooses what is called',
    '7b': 'if on a bool parameter, a letter, a mode or a factor that chooses what is done',
    '8a': 'answer for a goal in Answers.antt or Proof.antt',
    '8b': 'line of 60 letters or more that stands three or more times in the proofs of a crate: a line is a place',
    '8c': 'proof folder whose text is another folder\'s but for names: a pair is a place',
}

Fn = collections.namedtuple('Fn', 'crate file line name params result clauses body text pub')
Place = collections.namedtuple('Place', 'rule crate file line name what')


def bare(text):
    """The text with comments blanked out, so that lines keep their numbers."""
    return re.sub(r'//[^\n]*', '', text)


def closing(text, at, pair='{}'):
    """The place behind the bracket that closes the one at `at`."""
    depth = 0
    for i in range(at, len(text)):
        depth += (text[i] == pair[0]) - (text[i] == pair[1])
        if depth == 0:
            return i + 1
    return len(text)


def split(list_text):
    """A comma list, split outside brackets."""
    parts, depth, part = [], 0, ''
    for c in list_text:
        depth += (c in '([{<') - (c in ')]}>' and part[-1:] != '-')
        if c == ',' and depth == 0:
            parts, part = parts + [part], ''
        else:
            part += c
    return [p.strip() for p in parts + [part] if p.strip()]


def functions(crate, file, text):
    for m in re.finditer(r'^([ \t]*)((?:pub(?:\([a-z]+\))? )?(?:const )?(?:unsafe )?(?:extern "C" )?)fn (\w+)', text, re.M):
        opens = m.end()
        if text[opens:opens + 1] == '<':
            depth = 0
            for opens in range(opens, len(text)):
                depth += (text[opens] == '<') - (text[opens] == '>' and text[opens - 1] not in '-=')
                if depth == 0:
                    break
        opens = text.find('(', opens)
        ends = closing(text, opens, '()')
        head = re.compile(r'\{[ \t]*\n').search(text, ends)
        line_end = text.find('\n', ends)
        if not text[ends:line_end].rstrip().endswith('{'):
            head = re.compile(r'^[ \t]*\{[ \t]*\n', re.M).search(text, line_end)
        if head is None:
            continue
        start = text.find('{', head.start())
        stop = closing(text, start)
        header = text[ends:start]
        clauses = [(k, c.strip()) for k, c in re.findall(r'(requires|ensures)\s*\w*\s*\{(.*)\}\s*$', header, re.M)]
        result = re.match(r'\s*->\s*([^\n{]+)', header)
        params = [tuple(x.strip() for x in p.split(':', 1)) for p in split(text[opens + 1:ends - 1]) if ':' in p]
        yield Fn(crate, file, text.count('\n', 0, m.start()) + 1, m.group(3), params,
                 result.group(1).strip() if result else '', clauses, text[start:stop], text[m.start():stop], 'pub' in m.group(2))


def line_of(f, at):
    return f.line + f.text.count('\n', 0, len(f.text) - len(f.body) + at)


def is_list(t):
    return re.match(r"&(?:'\w+ )?(?:mut )?\[", t) is not None


# ---- the points

def point1(tree, fns, files):
    for crate, file, text in files:
        for m in re.finditer(r'^[ \t]*(?:pub )?(enum|struct) (\w+)[^{;\n]*\{', text, re.M):
            body = text[m.end():closing(text, m.end() - 1) - 1]
            parts, line = split(body), text.count('\n', 0, m.start()) + 1
            if m.group(1) == 'enum' and len(parts) == 2 and any('(' in p or '{' in p for p in parts):
                yield Place('1a', crate, file, line, m.group(2), ' | '.join(' '.join(p.split()) for p in parts))
            if m.group(1) == 'struct' and any(re.search(r'\b(fault|answer|\w*again|cut): |: bool$', p) for p in parts):
                yield Place('1b', crate, file, line, m.group(2), ', '.join(p.replace('pub ', '') for p in parts))
            for p in parts if m.group(1) == 'struct' else []:
                if re.match(r'(?:pub )?' + KIND_NAMES + r': ' + NUMBER, p):
                    yield Place('1g', crate, file, line, m.group(2), 'field ' + p.replace('pub ', ''))
        for m in re.finditer(r'^[ \t]*(?:pub )?const (' + KIND_CONSTS + r'): ' + NUMBER, text, re.M):
            yield Place('1g', crate, file, text.count('\n', 0, m.start()) + 1, m.group(1), 'constant')
    for f in fns:
        spoken = f.name + ' '.join(c for k, c in f.clauses if k == 'ensures' and 'result' in c)
        if f.result == 'u32' and re.search(r'fault|sides_by', spoken):
            yield Place('1c', f.crate, f.file, f.line, f.name, f.result)
        for m in re.finditer(r'if (\w+) != 0 \{\s*return [^;]*\b\1\b[^;]*;', f.body):
            yield Place('1d', f.crate, f.file, line_of(f, m.start()), f.name, ' '.join(m.group(0).split()))
        for m in re.finditer(r'let (\w+)::(\w+)\(\w+\) =[^;]*? else \{\s*return|\w+::Refused\((\w+)\) => \w+::Refused', f.body):
            yield Place('1d', f.crate, f.file, line_of(f, m.start()), f.name, ' '.join(m.group(0).split()))
        for m in re.finditer(r'Refused\((\d+)\)', f.body):
            yield Place('1e', f.crate, f.file, line_of(f, m.start()), f.name, m.group(1))
        if f.result == 'u32' and re.search(r'fault|sides_by', spoken):
            for m in re.finditer(r'return ([1-9]\d*);|\{\s*([1-9]\d*)\s*\}|^\s*([1-9]\d*)\s*\}\Z', f.body, re.M):
                yield Place('1e', f.crate, f.file, line_of(f, m.start()), f.name, m.group(1) or m.group(2) or m.group(3))
        for name, t in f.params:
            if t == 'bool':
                yield Place('1f', f.crate, f.file, f.line, f.name, name)
            if re.fullmatch(KIND_NAMES, name) and re.fullmatch(NUMBER, t):
                yield Place('1g', f.crate, f.file, f.line, f.name, 'parameter %s: %s' % (name, t))


def alike(text):
    """The words of a function or type, where types, numbers, constants and the word's name are made one."""
    text = re.sub(r'\b' + NUMBER + r'\b', 'T', text)
    text = re.sub(r'\b(?:deep|crate|planes|super)::', '', text)
    text = re.sub(r'\b(?:byte|deep)_?(?=\b|fault)', 'W', text)
    text = re.sub(r'(\w)(?:16|_16)\b', r'\1', text)
    text = re.sub(r'\b(?:0x[\dA-Fa-f_]+|\d+)\w*\b', 'N', text)
    text = re.sub(r'\bpub\b|#\[[^\]]*\]|extern "C"', '', text)
    return re.findall(r'\w+|[^\w\s]', text)


def groups(items, least, words):
    """Items whose words agree by `least`, as groups of two or more."""
    left = [(x, words(x)) for x in items]
    left = [(x, w) for x, w in left if len(w) >= 20]
    while left:
        (x, w), rest, mates = left[0], [], []
        for y, v in left[1:]:
            long = max(len(w), len(v))
            s = difflib.SequenceMatcher(None, w, v, autojunk=False)
            if abs(len(w) - len(v)) <= long * (1 - least) * 2 and s.quick_ratio() >= least and s.ratio() >= least:
                mates.append(y)
            else:
                rest.append((y, v))
        if mates:
            yield [x] + mates
        left = rest


def own_words(f):
    words = alike(f.text)
    return ['F' if w == f.name or w == re.sub(r'_?16$', '', f.name) else w for w in words]


def point2(tree, fns, files):
    by_crate = collections.defaultdict(list)
    for f in fns:
        by_crate[f.crate].append(f)
    for crate in sorted(by_crate):
        named = collections.defaultdict(list)
        for f in by_crate[crate]:
            named[re.sub(r'_?16$', '', f.name)].append(f)
        for name, g in named.items():
            if len(g) > 1:
                like = difflib.SequenceMatcher(None, own_words(g[0]), own_words(g[1]), autojunk=False).ratio()
                yield Place('2a', crate, g[0].file, g[0].line, name, '%d in 100 alike: %s' % (100 * like, ', '.join('%s:%d' % (os.path.basename(f.file), f.line) for f in g)))
        for g in groups(by_crate[crate], 0.85, own_words):
            if len({re.sub(r'_?16$', '', f.name) for f in g}) > 1:
                yield Place('2b', crate, g[0].file, g[0].line, g[0].name, ', '.join('%s:%d %s' % (os.path.basename(f.file), f.line, f.name) for f in g))
    library = [f for f in fns if f.crate != 'brinepulley_c']
    for g in groups(library, 0.85, own_words):
        if len({f.crate for f in g}) > 1:
            yield Place('2e', 'over crates', g[0].file, g[0].line, g[0].name, ', '.join('%s:%d %s' % (f.file, f.line, f.name) for f in g))
    c = [f for f in fns if f.crate == 'brinepulley_c']
    if c:
        names = {f.name for f in fns if f.crate == 'brinepulley'}
        twins = [f for f in c if f.name in names]
        yield Place('2e', 'over crates', twins[0].file, twins[0].line, 'brine_*', '%d exports with the text of brinepulley\'s functions' % len(twins))
    types, consts = collections.defaultdict(list), collections.defaultdict(list)
    for crate, file, text in files:
        for m in re.finditer(r'^[ \t]*(?:pub )?(enum|struct) (\w+)[^{;\n]*\{', text, re.M):
            body = text[m.start():closing(text, m.end() - 1)]
            key = ' '.join('S' if w == m.group(2) else w for w in alike(body))
            types[key].append((crate, file, text.count('\n', 0, m.start()) + 1, m.group(2)))
        for m in re.finditer(r'^[ \t]*(?:pub )?const (\w+): (\w+) = ([^;]+);', text, re.M):
            consts[m.group(1), m.group(3)].append((crate, file, text.count('\n', 0, m.start()) + 1, m.group(1)))
    for rule, found in (('2c', types), ('2d', consts)):
        for g in found.values():
            if len(g) > 1:
                yield Place(rule, g[0][0], g[0][1], g[0][2], g[0][3], ', '.join('%s:%d %s' % x[1:] for x in g))


def point3(tree, fns, files):
    for f in fns:
        for m in re.finditer(r'\bwhile ([^{]*)\{|\bloop \{', f.body):
            yield Place('3a', f.crate, f.file, line_of(f, m.start()), f.name, ' '.join(m.group(0)[:-1].split()))
        for m in re.finditer(r'\bfor (\w+) in ([^{\n]*\.\.[^{\n]*)\{', f.body):
            turn = f.body[m.end():closing(f.body, m.end() - 1)]
            names = {m.group(1)}
            for n in re.findall(r'let (?:mut )?(\w+) = [^;]*\b%s\b[^;]*;' % m.group(1), turn):
                names.add(n)
            index = any(re.search(r'\b%s\b' % n, part) for n in names for part in re.findall(r'\w\[([^\]]*)\]', turn))
            index = index or '.len()' in m.group(2)
            yield Place('3b' if index else '3c', f.crate, f.file, line_of(f, m.start()), f.name, ' '.join(m.group(0)[:-1].split()))


def point4(tree, fns, files):
    for f in fns:
        b = ' '.join(f.body.split())
        at = lambda rule, what: Place(rule, f.crate, f.file, f.line, f.name, what)
        for m in re.finditer(r'if (\w+) <=? (\w+) \{ (?:return )?(?:\1|\2|\1 - \2|\2 - \1);? \} (?:else \{ )?(?:\1|\2|\1 - \2|\2 - \1)\b', b):
            yield at('4a', m.group(0))
        for m in re.finditer(r'if (\w+) <=? 0(?:\.0)? \{ (?:\(0 - \1\) as \w+|0\.0) \} else \{ \1[^}]*\}|if \w+ <= \w+ \{ return 0; \} \w+ - \w+', b):
            yield at('4a', m.group(0))
        for m in re.finditer(r'for (\w+) in [^{]*\{ (\w+)\[\1\] = (\w+(?:\[\1\])?); \}', b):
            yield at('4b', m.group(0))
        for m in re.finditer(r'for (\w+) in [^{]*\{ (?:let [^;]*; )?if [^{]*\[\1\][^{]*\{ return true; \}[^}]*\} false', b):
            yield at('4b', m.group(0))
        fields = len(re.findall(r'\w+: \w+\[\w+\]|\w+\[\w+\] = \w+\.\w+|put_\w+\([^;]*\w\.\w+\);|\b\w+: (\w)\.\w+', b))
        if fields >= 3 or re.match(r'(?:u\d+_at|f64_at|put_u\d+|put_f64|number_at|put_number|bits_of|of_bits|of_(?:sample|quarter|cost|entry|word)|low|wide|signed|below\w*)$', f.name) and 'word' not in f.name[:4]:
            yield at('4c', '%d fields or places' % fields if fields else 'number')
        if f.file.endswith('code.rt'):
            yield at('4c', 'an answer to an i64')
        for m in re.finditer(r'\((\w)\.(\w+) != (\w)\.\2\)|\b(\w+) != \4\b', b):
            yield at('4d', m.group(0))
        if any('impl Print' in t for n, t in f.params) and re.match(r'put_?(?:$|refusal|float|whole|real|backward|answer|measures|number|letter|row)', f.name):
            yield at('4e', ', '.join('%s: %s' % p for p in f.params[1:]))


def normal(clause, f):
    """A clause with its parameters named by their types, in the order in which they come."""
    types, seen = dict(f.params), {}
    def name(m):
        w = m.group(0)
        if w == 'self':
            return 'self'
        if w not in types:
            return w
        t = re.sub(r'\b(?:u8|u16)\b', 'S', types[w].replace('mut ', ''))
        seen.setdefault(w, '%s%d' % (t, 1 + sum(1 for v in seen.values() if v.startswith(t))))
        return seen[w]
    clause = re.sub(r'\.(?:now|old|new)\b', '', clause)
    clause = re.sub(r'\b(?:byte|deep)\b', 'W', clause)
    return re.sub(r'(?<![\w.])\w+', name, ' '.join(clause.split()))


def key(f):
    return f._replace(params=tuple(f.params), clauses=tuple(f.clauses))


def point5(tree, fns, files):
    clauses = collections.defaultdict(list)
    for f in fns:
        for c in {normal(c, f) for k, c in f.clauses if k == 'requires'}:
            clauses[c].append(f)
    for c, g in sorted(clauses.items()):
        if len(g) >= 3:
            yield Place('5a', '+'.join(sorted({f.crate for f in g})), g[0].file, g[0].line, g[0].name, '%d functions: %s' % (len(g), c))
    left = {f: [tuple((n, re.sub(r'\b(?:u8|u16)\b', 'S', t.replace('mut ', ''))) for n, t in f.params if n != 'rt')] for f in map(key, fns)}
    while True:
        runs = collections.defaultdict(set)
        for f, pieces in left.items():
            for p in pieces:
                for i in range(len(p)):
                    for j in range(i + 2, len(p) + 1):
                        runs[p[i:j]].add(f)
        best = max(((len(g) * (len(r) - 1), len(r), r) for r, g in runs.items() if len(g) >= 3), default=None)
        if best is None:
            break
        r, g = best[2], runs[best[2]]
        first = sorted(g)[0]
        yield Place('5b', '+'.join(sorted({x.crate for x in g})), first.file, first.line, first.name, '%d functions: %s' % (len(g), ', '.join('%s: %s' % x for x in r)))
        for f in g:
            pieces = []
            for p in left[f]:
                at = next((k for k in range(len(p)) if p[k:k + len(r)] == r), None)
                pieces += [p] if at is None else [p[:at], p[at + len(r):]]
            left[f] = pieces
    pairs = collections.defaultdict(set)
    for f in map(key, fns):
        for (n, t), (m, u) in zip(f.params, f.params[1:]):
            u = 'list' if is_list(u) else u
            if re.fullmatch(r'[A-Z]\w+', t) and (u == 'list' or u == 'usize' and m in ('n', 'm')):
                pairs[t, u].add(f)
    for (t, u), g in sorted(pairs.items()):
        if len(g) >= 3:
            first = sorted(g)[0]
            yield Place('5c', '+'.join(sorted({x.crate for x in g})), first.file, first.line, first.name, '%d functions: %s, then a %s' % (len(g), t, u))


def point6(tree, fns, files):
    for crate, file, text in files:
        for m in re.finditer(r'^[ \t]*(?:pub )?struct (\w+)[^{;\n]*\{', text, re.M):
            body = text[m.end():closing(text, m.end() - 1) - 1]
            if re.search(r': \[', body) and re.search(r'\b(?:count|len|used)\w*: ', body):
                yield Place('6a', crate, file, text.count('\n', 0, m.start()) + 1, m.group(1), ' '.join(body.split()))
        names = collections.Counter(re.findall(r'\b(\w+)\[(?:\w+::)?[A-Z][A-Z_]*\b(?! as)', text))
        names.update(re.findall(r'\b(numbers|s)\[\d\]', text))
        names.update(re.findall(r'\((desk), (?:\w+::)?[A-Z][A-Z_]+\b', text))
        for n, k in names.items():
            if k >= 3:
                yield Place('6d', crate, file, 1, n, '%d uses of named or numbered places' % k)
    for f in fns:
        lists = [n for n, t in f.params if is_list(t)]
        counts = [n for n, t in f.params if t == 'usize' and re.fullmatch(r'count|n|used|items|chunks|len', n)]
        if lists and counts and not f.name.startswith('brine_'):
            yield Place('6b', f.crate, f.file, f.line, f.name, ', '.join('%s: %s' % p for p in f.params))
        used = collections.defaultdict(set)
        for list_, index in re.findall(r'\b(\w+)\[([^\]\[]*)\]', f.body):
            for i in re.findall(r'[a-z_]\w*', index):
                used[i].add(list_)
        for i, ls in sorted(used.items()):
            if len(ls & set(lists)) >= 2 and i not in lists:
                yield Place('6c', f.crate, f.file, f.line, f.name, '%s by %s' % (', '.join(sorted(ls)), i))


def point7(tree, fns, files):
    for f in fns:
        for m in re.finditer(r'\bmatch (\w+) \{', f.body):
            arms = f.body[m.end():closing(f.body, m.end() - 1)]
            if len(re.findall(r'=> [\w:]+\(', arms)) >= 2 and re.search(r"^\s*(?:\d+|b'.')", arms, re.M):
                yield Place('7a', f.crate, f.file, line_of(f, m.start()), f.name, 'match ' + m.group(1))
        bools = [n for n, t in f.params if t == 'bool']
        for m in re.finditer(r"\bif (?:\w+\.)?(\w+)(?: == b'.'| [!=]= (?:Settings::)?(?:FAST|NONE)| < \d+)? \{", f.body):
            if m.group(1) in bools or "b'" in m.group(0) or re.search(r'FAST|NONE|factor <', m.group(0)):
                yield Place('7b', f.crate, f.file, line_of(f, m.start()), f.name, m.group(0)[:-2])


def point8(tree, fns, files):
    lines = collections.defaultdict(lambda: collections.defaultdict(list))
    folders = collections.defaultdict(list)
    for path in sorted(glob.glob(os.path.join(tree, 'crates', '*', 'proofs', '**', '*.antt'), recursive=True)):
        file = os.path.relpath(path, tree)
        crate = file.split(os.sep)[1]
        text = open(path, encoding='utf-8').read()
        for n, line in enumerate(text.splitlines(), 1):
            line = ' '.join(line.split('--')[0].split())
            if len(line) >= 60 and not re.match(r'(?:pub )?use ', line):
                lines[crate][line].append((file, n))
        if os.path.basename(file) in ('Answers.antt', 'Proof.antt'):
            for m in re.finditer(r'^pub ([\w-]+) : goal\.', text, re.M):
                yield Place('8a', crate, file, text.count('\n', 0, m.start()) + 1, m.group(1), '')
        if os.path.basename(file) in ('Answers.antt', 'Invariants.antt', 'Proof.antt'):
            body = '\n'.join(x.split('--')[0] for x in text.splitlines() if not re.match(r'(?:pub )?use ', x))
            folders[crate].append((file, alike(body)))
    for crate in sorted(lines):
        for line, found in lines[crate].items():
            if len(found) >= 3:
                yield Place('8b', crate, found[0][0], found[0][1], '%d times' % len(found), line[:100])
    for crate in sorted(folders):
        for g in groups(folders[crate], 0.9, lambda x: x[1]):
            for x in g[1:]:
                yield Place('8c', crate, x[0], 1, '', 'as ' + g[0][0])


def main():
    a = argparse.ArgumentParser(description=__doc__.splitlines()[0])
    a.add_argument('tree', nargs='?', default='.')
    a.add_argument('--point', type=int)
    a.add_argument('--counts', action='store_true')
    args = a.parse_args()
    files = []
    for path in sorted(glob.glob(os.path.join(args.tree, 'crates', '*', 'src', '**', '*.rt'), recursive=True)):
        file = os.path.relpath(path, args.tree)
        files.append((file.split(os.sep)[1], file, bare(open(path, encoding='utf-8').read())))
    fns = [f for crate, file, text in files for f in functions(crate, file, text)]
    print('%d files, %d functions' % (len(files), len(fns)))
    counts = collections.defaultdict(collections.Counter)
    for n, point in enumerate((point1, point2, point3, point4, point5, point6, point7, point8), 1):
        if args.point not in (None, n):
            continue
        for p in sorted(set(point(args.tree, fns, files)), key=lambda p: (p.rule, p.crate, p.file, p.line)):
            counts[p.rule][p.crate] += 1
            if not args.counts:
                print('%s  %s:%d  %s  %s' % (p.rule, p.file, p.line, p.name, p.what))
    for rule, by in sorted(counts.items()):
        print('\n%s  %s: %d' % (rule, RULES[rule], sum(by.values())))
        print('    ' + ', '.join('%s %d' % x for x in sorted(by.items())))


if __name__ == '__main__':
    main()
