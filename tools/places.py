#!/usr/bin/env python3
"""Places in src/ that are written in an older form, point by point (docs/DESIGN-PASS.md says what the points are).
  tools/places.py            counts for the checkout
  tools/places.py COMMIT     counts for a commit
  tools/places.py -l [..]    each place, a line each
What a place is, is a rule over the text, so that it can be counted again; which of them stay, and why, is said beside each and on that page."""
import collections, difflib, os, re, subprocess, sys

args = sys.argv[1:]
listing = '-l' in args
args = [a for a in args if a != '-l']
top = subprocess.run(['git', 'rev-parse', '--show-toplevel'], capture_output=True, text=True, check=True, cwd=os.path.dirname(os.path.abspath(__file__))).stdout.strip()

def files():
    if args:
        names = subprocess.run(['git', 'ls-tree', '-r', '--name-only', args[0], 'crates'], capture_output=True, text=True, check=True, cwd=top).stdout.split()
        for n in names:
            if n.endswith('.rt'):
                yield n, subprocess.run(['git', 'show', args[0] + ':' + n], capture_output=True, text=True, check=True, cwd=top).stdout
    else:
        for n in sorted(subprocess.run(['git', 'ls-files', 'crates'], capture_output=True, text=True, check=True, cwd=top).stdout.split()):
            if n.endswith('.rt') and os.path.exists(os.path.join(top, n)):
                yield n, open(os.path.join(top, n)).read()

places = collections.defaultdict(list)
def place(point, name, line, what):
    places[point].append((name.split('/')[1], line, what))

def block(lines, i):
    """The lines of the block that opens on line i."""
    depth, out = 0, []
    for l in lines[i:]:
        depth += l.count('{') - l.count('}')
        out.append(l)
        if depth <= 0 and len(out) > 1 or depth == 0 and '{' in l:
            break
    return out

bodies = []     # file, line, name and text of each function without its clauses
for name, text in files():
    crate = name.split('/')[1]
    lines = text.replace('pub(crate) ', 'pub ').split('\n')     # what is the crate's own counts as what is public does
    code = [re.sub(r'//.*', '', l) for l in lines]
    whole = '\n'.join(code)
    # 1. own enums of the shape of Option or Result: a variant that holds what is meant, and variants that say why there is none
    for m in re.finditer(r'^(?:pub )?enum (\w+)(?:<[^>]*>)? \{(.*?)^\}', whole, re.M | re.S):
        n, body = m.group(1), m.group(2)
        if re.search(r'\b(Done|Granted|Accepted|Jobs|All|Symbols|Bytes|Record|First|Nothing)\b', body) :
            place('1 enums', name, whole[:m.start()].count('\n') + 1, 'enum ' + n)
    for i, l in enumerate(code):
        # a flag with a value beside it; a number for a refusal or a kind; a number that stands for none
        m = re.match(r'\s*(?:pub )?(room|fine|right|made|is_left): bool,', l)
        if m: place('1 flags', name, i + 1, m.group(0).strip())
        m = re.match(r'\s*(?:pub )?code: u(32|64),', l)
        if m: place('1 codes', name, i + 1, m.group(0).strip())
        m = re.search(r'\bmatch (code|kind|said|way|round|value|at\(fields, 0\)|asked % 65536|k)\b.* \{', l)
        if m: place('1 codes', name, i + 1, l.strip())
        m = re.search(r'\bcode(\(\))? != 0|\bcode == 0\b|== 512\b|32 <= at\b|NOWHERE\b|NO_NUMBER\b|== n \{|== ALL\b|!= ALL\b|i == count|k == count', l)
        if m and not re.match(r'\s*const ', l): place('1 sentinels', name, i + 1, l.strip())
        # 3. loops that count an index by hand
        m = re.match(r'\s*while (.*) \{$', l)
        if m:
            b = '\n'.join(block(code, i)[1:])
            names = re.findall(r'\b([a-z_]\w*)\b', m.group(1))
            if any(re.search(r'\b%s [+-]= ' % v, b) for v in names):
                place('3', name, i + 1, l.strip())
        # 4. written by hand: equality, order, copying, conversion, packing of bytes
        m = re.match(r'\s*(?:pub )?fn (same\w*|higher|least|less|plus|wide|two|four|byte_of|bytes_of|put_number|request_at|item_at|record_at|number_of|digit|low|byte_at|in_one|as_expected|to_start|list_in)\b', l)
        if m and crate not in ('text', 'reader'): place('4', name, i + 1, 'fn ' + m.group(1))
        elif m and m.group(1) in ('two', 'four'): place('4', name, i + 1, 'fn ' + m.group(1))
        if 'std::num::wrapping_' in l: place('4 wrapping', name, i + 1, l.strip())
        # 7. a flag that says which step to run
        m = re.match(r'\s*(?:pub )?fn (\w+)', l)
        if m:
            sig = ' '.join(code[i:i + 16]).split('{')[0].split('ensures')[0].split('requires')[0]
            f = re.findall(r'\b(\w+): bool\b', sig)
            if f: place('7', name, i + 1, 'fn %s: %s' % (m.group(1), ', '.join(f)))
            pars = set(re.findall(r'\b(\w+): ', sig))
            for group in (('next', 'free', 'numbers', 'leads', 'sets', 'ports'), ('numbers', 'states', 'told', 'count', 'n')):
                have = [p for p in group if p in pars]
                if len(have) >= 3:
                    place('5 parameters', name, i + 1, 'fn %s: %s' % (m.group(1), ', '.join(have)))
            # 6. an array, or a slice, with a count of what stands in it beside it
            if re.search(r'\[\w+; \w+\]|&(mut )?\[\w+\]', sig) and re.search(r'\b(count|n|kept|size|used|span|waiting): u(size|64)\b', sig):
                place('6', name, i + 1, 'fn ' + m.group(1))
            whole_fn = '\n'.join(block(code, next((j for j in range(i, len(code)) if code[j].rstrip() == '{' or code[j].endswith(' {') and 'ensures' not in code[j] and 'requires' not in code[j]), i)))
            head = ' '.join(x for x in code[i:i + 24]).split(' ensures ')[0].split(' requires ')[0].split('{')[0]
            bodies.append((name, i + 1, m.group(1), head + whole_fn))
        if re.match(r'type \w+ = \[\w+; \d+\];', l): place('6', name, i + 1, l.strip())
    facts = collections.Counter()
    for m in re.finditer(r'requires \{ (.*?) \}\s', whole):
        for part in re.split(r'\) × \(', m.group(1).strip('()')):
            facts[part] += 1
    for f, c in facts.items():
        if c >= 3:
            place('5 facts', name, 0, '%d times: %s' % (c, f))
# 2. twins: functions of one shape. Of each pair of functions of 30 tokens or more: four fifths of the tokens are the same, in the same order. The exports for C are left out
def shape(text):
    return re.findall(r"b?'[^']*'|b?\"[^\"]*\"|\w+|[^\w\s]", text)
funs = [(name, line, n, shape(t)) for name, line, n, t in bodies if not name.split('/')[1].endswith('_c')]
funs = [f for f in funs if len(f[3]) >= 30]
funs.sort(key=lambda f: len(f[3]))
for i, a in enumerate(funs):
    bag = collections.Counter(a[3])
    for b in funs[i + 1:]:
        if len(b[3]) > 1.5 * len(a[3]):
            break
        total = len(a[3]) + len(b[3])
        if 2 * sum((bag & collections.Counter(b[3])).values()) < 0.8 * total:
            continue
        if difflib.SequenceMatcher(None, a[3], b[3], False).ratio() >= 0.8:
            place('2', a[0], a[1], 'fn %s and %s:%d fn %s' % (a[2], b[0].split('/')[1], b[1], b[2]))
# 8. what is said of the proofs of code by hand: each answer
if args:
    names = [n for n in subprocess.run(['git', 'ls-tree', '-r', '--name-only', args[0], 'crates'], capture_output=True, text=True, check=True, cwd=top).stdout.split() if n.endswith('/Answers.antt')]
    texts = [(n, subprocess.run(['git', 'show', args[0] + ':' + n], capture_output=True, text=True, check=True, cwd=top).stdout) for n in names]
else:
    names = [n for n in subprocess.run(['git', 'ls-files', 'crates'], capture_output=True, text=True, check=True, cwd=top).stdout.split() if n.endswith('/Answers.antt') and os.path.exists(os.path.join(top, n))]
    texts = [(n, open(os.path.join(top, n)).read()) for n in names]
for n, t in texts:
    for i, l in enumerate(t.split('\n')):
        m = re.match(r'(?:pub )?(\S+) : goal\.', l)
        if m: place('8', n, i + 1, n.split('/', 2)[2] + ' ' + m.group(1))
for point in sorted(places):
    print('%-14s %4d' % (point, len(places[point])))
    if listing:
        for crate, line, what in places[point]:
            print('    %s:%d %s' % (crate, line, what))
