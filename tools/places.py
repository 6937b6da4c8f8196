#!/usr/bin/env python3
"""Lists places of crates/*/src that a plainer form may serve, by the points of docs/DESIGN-PASS.md.

    tools/places.py [-q] [TREE]

-q prints the numbers alone. Each point is a search over the lines of crates/*/src, but 2, which compares functions with all names of
their own, types, numbers and constants taken out, and 8, which reads the answers in proofs/.
"""
import collections, glob, os, re, sys

quiet = '-q' in sys.argv
rest = [a for a in sys.argv[1:] if a != '-q']
os.chdir(rest[0] if rest else os.path.join(os.path.dirname(os.path.abspath(__file__)), '..'))
SOURCES = sorted(f for f in glob.glob('crates/*/src/**/*.rt', recursive=True) if not f.endswith('logs/src/entries.rt'))


def lines(pattern):
    found = []
    for f in SOURCES:
        for n, l in enumerate(open(f), 1):
            if not l.lstrip().startswith('//') and re.search(pattern, l):
                found.append((f, n, l.strip()))
    return found


def functions():
    """each function: file, line, name, parameters, body"""
    out = []
    for f in SOURCES:
        text = open(f).read()
        for m in re.finditer(r'^( *)(?:pub(?:\(crate\))? )?(?:extern "C" )?fn (\w+)(.*?)^\1\}', text, re.S | re.M):
            whole = m.group(3)
            body = re.split(r'^ *\{$|\{\n', whole, 1, re.M)[-1]
            out.append((f, text[:m.start()].count('\n') + 1, m.group(2), whole, body))
    return out


def twins():
    groups = collections.defaultdict(list)
    for f, n, name, whole, body in functions():
        b = re.sub(r'//[^\n]*', '', body)
        b = re.sub(r'\b[A-Z][A-Za-z0-9_]*(::[A-Za-z]\w*)?', 'T', b)
        b = re.sub(r'\b(u8|u16|u32|u64|i32|i64|f64|usize|bool)\b', 'T', b)
        b = re.sub(r"\b\d[\d_.]*(u8|u32|i32|usize)?\b|b?'(\\.|[^'])'", 'N', b)
        b = re.sub(r'\b(\w+)\[([^\]]+)\]', r'f(\1, \2)', b)
        b = re.sub(r'\b\w+\(', 'f(', b)
        names = {}
        b = re.sub(r'\b[a-z_]\w*\b', lambda m: names.setdefault(m.group(0), 'v%d' % len(names)), b)
        b = re.sub(r'\s+', '', b)
        if len(b) > 30:
            groups[b].append((f, n, name))
    for f in SOURCES:
        text = open(f).read()
        for m in re.finditer(r'struct (\w+)[^{;]*\{(.*?)\n\}', text, re.S):
            fields = re.findall(r'(\w+): [^,\n]+,', re.sub(r'//[^\n]*', '', m.group(2)))
            if len(fields) > 1:
                groups[('struct',) + tuple(fields)].append((f, text[:m.start()].count('\n') + 1, 'struct ' + m.group(1)))
    return [x for g in groups.values() if len(g) > 1 for x in g]


def travelling():
    """parameter lists that hold three planes, or a buffer and a place in it, or a table beside what it is read for"""
    out = []
    for f, n, name, whole, body in functions():
        head = whole.split(')')[0]
        for a in (r'c1: &(mut )?\[i32\].*c2: &(mut )?\[i32\].*c3: &(mut )?\[i32\]', r't1: &mut \[i32\].*t2: .*t3: ',
                  r'text: &(mut )?\[u8\],\s*at: usize', r'counters: &mut \[u32\].*table: &', r'm1: usize.*m2: usize', r'n1: usize.*n2: usize',
                  r'width: u32,\s*height: u32,\s*depth: u32'):
            if re.search(a, head, re.S):
                out.append((f, n, name + ': ' + re.sub(r'\s+', ' ', re.search(a, head, re.S).group(0))[:60]))
    return out


def facts():
    """requires clauses that stand in three or more functions"""
    seen = collections.defaultdict(list)
    for f, n, l in lines(r'^\s*requires'):
        for part in re.findall(r'\{ (.*) \}', l):
            for c in re.split(r' × ', part):
                key = re.sub(r'\b[a-z]\w*(\.\w+)*\b', 'x', c.strip('() '))
                seen[(f.split('/')[1], key)].append((f, n, l.strip()))
    return sorted({x for g in seen.values() if len(set(g)) > 2 for x in g})


def short_answers():
    out = []
    for f in sorted(glob.glob('crates/*/proofs/**/Answers.antt', recursive=True)):
        text = open(f).read()
        for m in re.finditer(r'^([\w\-]+)(?: \w+)* =\s*(refl|search rules|omega arith|search \w+|grind \(arith, common_steps\))\s*$', text, re.M):
            out.append((f, text[:m.start()].count('\n') + 1, m.group(0).strip()))
    return out


POINTS = [
    ('1', 'enums shaped like Option or Result; a flag or a number beside a value; numbers for kinds and refusals',
     lambda: lines(r'Refused\(u32\)|^\s*(pub )?(refusal: u32|formed: bool|digits: usize),|fn \w*refusal\(|fn (first_of|depth_of|counters)\('
                   r'|const [A-Z_]+: u32 = \d;|match \(?(transform|plane|space|filter|number|kind|height|k) ?[%{/]|return [0-9]+;|Refused\(\d+\)|refusal: (u32|n)\b')),
    ('2', 'functions that differ in a type, a size or a constant', twins),
    ('3', 'loops that count an index by hand', lambda: lines(r'^\s*while |for \w+ in 0\.\.')),
    ('4', 'equality, order, conversion and printing by hand',
     lambda: lines(r'fn (larger|larger_byte|lesser|greater|same_plane|select|number|written|restored|returned|outcome|from_row|print\w*|digit|magnitude|same_pixel|depths|settings'
                   r'|planned|preview_struct|handed_in|indicator)\(|\b(\w+): \2,$')),
    ('5', 'facts in three or more contracts of a crate, and parameters that travel together', lambda: facts() + travelling()),
    ('6', 'a buffer with a length or a place beside it', lambda: lines(r'\blength: (usize|u32)|\bat: usize')),
    ('7', 'a flag that says which step to run', lambda: lines(r'\b(back|first|undone): bool')),
    ('8', 'answers that the check may find alone', short_answers),
]

for point, what, places in POINTS:
    found = places()
    print('%s: %d places: %s' % (point, len(found), what))
    if not quiet:
        for f, n, l in found:
            print('    %s:%d: %s' % (f, n, l))
