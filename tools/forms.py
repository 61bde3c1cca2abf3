#!/usr/bin/env python3
"""Lists, for the design pass, where the sources use a form that has a better one.

    python3 tools/forms.py [DIR]

DIR is a checkout, or this one. Each line is a place to look at, under one of eight kinds:
1 enums that may be an Option or a Result, flags, numbers for refusals; 2 functions alike but for names; 3 loops;
4 conversions, tests and texts by hand; 5 clauses and parameters that repeat; 6 arrays and words; 7 traits, dyn and
function pointers; 8 answers in proof files.
"""
import os, re, sys, collections

top = sys.argv[1] if len(sys.argv) > 1 else os.path.join(os.path.dirname(__file__), '..')
files = []
for crate in sorted(os.listdir(os.path.join(top, 'crates'))):
    for root, _, names in sorted(os.walk(os.path.join(top, 'crates', crate, 'src'))):
        files += [os.path.join(root, n) for n in sorted(names) if n.endswith('.rt')]
short = lambda p: os.path.relpath(p, os.path.join(top, 'crates'))
texts = {p: open(p, encoding='utf-8').read() for p in files}
places = collections.OrderedDict((k, []) for k in '12345678')


def note(point, path, line, what):
    places[point].append((short(path), line, what))


def code_lines(text):
    """The lines of a file without its comments, ghost lines and clauses."""
    for n, line in enumerate(text.split('\n'), 1):
        s = line.strip()
        if not s or s.startswith(('//', 'ghost', 'requires', 'ensures', 'use ', 'pub use')):
            continue
        yield n, line


# functions: (path, line, name, parameters, clauses, body)
functions = []
for path, text in texts.items():
    lines = text.split('\n')
    n = 0
    while n < len(lines):
        m = re.match(r'\s*(?:pub |pub\(crate\) )?fn (\w+)', lines[n])
        if m:
            head, k = '', n
            while k < len(lines) and not re.match(r'\s*(requires|ensures)\b|\s*\{\s*$', lines[k]) and not lines[k].rstrip().endswith((' {', ';')):
                head += lines[k].strip() + ' '
                k += 1
            if k < len(lines) and not re.match(r'\s*(requires|ensures)\b|\s*\{\s*$', lines[k]):
                head += lines[k].strip()
            clauses = []
            if k < len(lines) and lines[k].rstrip().endswith((' {', ';')) and not re.match(r'\s*(requires|ensures)\b', lines[k]):
                k += 1
            while k < len(lines) and re.match(r'\s*(requires|ensures)\b', lines[k]):
                c = re.search(r'\{(.*)\}', lines[k])
                clauses.append(c.group(1).strip() if c else '')
                k += 1
            indent = len(lines[n]) - len(lines[n].lstrip())
            body = []
            while k < len(lines) and not (lines[k].startswith(' ' * indent + '}') and len(lines[k]) - len(lines[k].lstrip()) == indent):
                body.append(lines[k])
                k += 1
            params = re.findall(r'(\w+): ', head.split('->')[0])
            if re.search(r'\bself\b', head.split('->')[0]):
                params.append('self')
            functions.append((path, n + 1, m.group(1), params, clauses, '\n'.join(body)))
        n += 1

# 1. enums, to be read for the shape of Option or Result; a flag with a value; numbers for kinds
for path, text in texts.items():
    for m in re.finditer(r'^(?:pub |pub\(crate\) )?enum (\w+)[^{]*\{(.*?)^\}', text, re.M | re.S):
        variants = re.findall(r'^    (\w+)', m.group(2), re.M)
        note('1', path, text[:m.start()].count('\n') + 1, 'enum %s: %s' % (m.group(1), ' '.join(variants)))
    for n, line in code_lines(text):
        if re.search(r'\(bool, |, bool\)|^\s*(pub )?\w+: bool,', line):
            note('1', path, n, line.strip())
        if re.search(r'number: u8|u8, usize\)', line):
            note('1', path, n, line.strip())

# 2. twins: functions, and types with their impls, whose text is the same but for names and literals
def skeleton(body):
    s = re.sub(r'//.*', '', body)
    s = re.sub(r'b?"[^"]*"|b?\'[^\']*\'|\b\d[\d_]*\w*\b', 'L', s)
    keep = {'fn', 'let', 'mut', 'if', 'else', 'match', 'for', 'in', 'while', 'loop', 'return', 'self', 'Some', 'None', 'Ok', 'Err', 'true', 'false', 'as', 'write', 'L'}
    s = re.sub(r'\b[A-Za-z_]\w*\b', lambda m: m.group(0) if m.group(0) in keep else 'n', s)
    return re.sub(r'\s+', ' ', s).strip()

groups = collections.defaultdict(list)
for path, line, name, params, clauses, body in functions:
    sk = skeleton(body)
    if len(sk) > 30:
        groups[sk].append((path, line, name))
for sk, members in groups.items():
    if len(members) > 1:
        for path, line, name in members:
            note('2', path, line, 'fn %s, %d alike' % (name, len(members)))

# 3. loops over an index, and loops that search
for path, text in texts.items():
    for n, line in code_lines(text):
        if re.search(r'\bfor .* in .*(\.\.|enumerate\(\))|\bwhile\b|\bloop\b', line):
            note('3', path, n, line.strip())

# 4. conversions, tests and printing by hand
for path, line, name, params, clauses, body in functions:
    tests = len(re.findall(r'\bis\(', body))
    arms = re.findall(r'=> ', body)
    if name in ('number', 'layer', 'low32', 'low8', 'sign', 'is', 'fmt', 'word') or tests > 1:
        note('4', path, line, 'fn %s' % name)
for path, text in texts.items():
    for n, line in code_lines(text):
        if re.search(r'Err\((\w+)\) => .*(Refused|Faulted)\(', line):
            note('4', path, n, line.strip())

# 5. clauses that stand in three or more contracts of a crate, and parameters that three or more functions share
by_crate = collections.defaultdict(list)
for f in functions:
    by_crate[short(f[0]).split(os.sep)[0]].append(f)
for crate, fs in by_crate.items():
    count = collections.Counter(c for f in fs for c in set(f[4]) if '≡' in c and '.old' in c and '.new' in c or '<' in c or '≤' in c)
    for c, k in count.items():
        if k >= 3:
            places['5'].append((crate, k, 'clause { %s }' % c))
    pairs = collections.Counter()
    for f in fs:
        ps = sorted(set(f[3]) - {'self', 'f', 'heap', 'rt'})
        for i in range(len(ps)):
            for j in range(i + 1, len(ps)):
                pairs[ps[i], ps[j]] += 1
    for (a, b), k in pairs.items():
        if k >= 3:
            places['5'].append((crate, k, 'parameters %s and %s' % (a, b)))

# 6. arrays, lengths beside buffers, words used as sets
for path, text in texts.items():
    for n, line in code_lines(text):
        if re.search(r'\[\w+; [^\]]+\]|\blen: usize|^\s*(pub )?\w+: u64,', line):
            note('6', path, n, line.strip())

# 7. dispatch by a kind, traits with one method, dyn, function pointers
for path, text in texts.items():
    for n, line in code_lines(text):
        if re.search(r'^\s*(pub |pub\(crate\) )?trait |\bdyn |\bfn\(', line) or re.search(r'impl (Test|Lattice) for', line):
            note('7', path, n, line.strip())

# 8. answers in proof files
for crate in sorted(os.listdir(os.path.join(top, 'crates'))):
    answers = lemmas = 0
    for root, _, names in os.walk(os.path.join(top, 'crates', crate)):
        if os.sep + 'out' in root:
            continue
        for name in names:
            if name.endswith('.antt'):
                text = open(os.path.join(root, name), encoding='utf-8').read()
                if name == 'Answers.antt':
                    answers += len(re.findall(r'^pub \S+ : goal\.', text, re.M))
                elif os.sep + 'proofs' in root or name.endswith('Lemmas.antt'):
                    lemmas += len(re.findall(r'^\s*pub [^\s:]+ : ', text, re.M)) if not name.startswith(('Invariants',)) else 0
    if answers or lemmas:
        places['8'].append((crate, answers, '%d lemmas' % lemmas))

for point, found in places.items():
    print('%s. %d' % (point, len(found) if point != '8' else sum(p[1] for p in found)))
    for where, line, what in found:
        print('   %s:%s  %s' % (where, line, what))
