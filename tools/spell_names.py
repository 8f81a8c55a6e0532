#!/usr/bin/env python3
"""Brings the repository's own definitions, lemmas, fields and constructors to the spelling of today's Rattle: words in
snake case, types in camel case. Run once, after port.py, at the top of the repository.

Left as they are: functions of src/ and all other code, strings, and, in the folder of a function's proof, what is named
after a goal (the conversion of those files renames it with the goal). Names that would fall together get a word more,
in CLASHES. In .rt files only imports and clauses are read; in pages only what stands in backquotes."""
import pathlib, re

ROOT = pathlib.Path('.')
# (part of a path, name): where a name in snake case is taken there already
CLASHES = {
    ('engine/proofs/Walking', 'told_of'): 'all_told_of',
    ('round/proofs/', 'area_of'): 'area_held',
    ('area/proofs/Areas', 'header_of'): 'header_zero',
    ('order/', 'no-hop'): 'no_hop_made',
    ('demands/', 'no-hop'): 'no_hop_made',
    ('teeth/', 'in-turn'): 'turned',
    ('teeth/', 'later-in-turn'): 'turned_later',
} | {(part, name): name.replace('-', '_') + '_lem' for part, names in {
    'record/proofs/Laws': ['extended-right', 'simple-right'],
    'keeps/proofs/Polls': ['is-assignment'],
    'calls/proofs/Powered': ['items-fit'],
    'lister/proofs/Begin': ['items-fit'],
    'frame/proofs/': ['bit-or', 'in_list'],
    'device/proofs/PollSentences': ['bit-or', 'past_all'],
    'device/proofs/Sentences': ['data-frame'],
    'device/proofs/Told': ['data-frame'],
    'device/proofs/Classes': ['data-frame'],
    'bus/proofs/': ['equal-codes'],
    'area/proofs/': ['loop-of', 'judge-of'],
    'order/': ['read-total', 'read-each', 'hop-in', 'after-hop', 'hop-on'],
    'round/proofs/': ['round-area', 'round-text'],
    'limits/': ['set-up'],
    'teeth/': ['set-up'],
    'lister/proofs/Chunked': ['set-up'],
    'demands/': ['set-up', 'hop-tells', 'or-stays', 'told-on', 'walk-refusal', 'turns-seen', 'read-total', 'calls_seen',
                 'read-each', 'hop-in', 'hop-leaves', 'handed-at', 'load-refusal', 'hops-made', 'all_told', 'area-left',
                 'in-turn', 'equal-codes'],
}.items() for name in names}
TOKEN = re.compile(r"[^\s(){}\[\].,;:λ∀«»\"@|`=]+")
DECL = re.compile(r'^((?:(?:abbrev|unfoldable|pub|syntax) +)*)([^\s:(){}]+(?: +[^\s:(){}]+)*?)\s*:(?=\s|$)')
FIELD = re.compile(r'^\s+(?:pub )?([^\s:(){}]+(?: +[^\s:(){}]+)*?)\s*:(?=\s|$)')


def files(*suffixes):
    for p in sorted((ROOT / 'crates').rglob('*')):
        if p.suffix in suffixes and p.is_file() and 'out' not in p.parts:
            yield p


def snake(n):
    if n[0].isupper():
        return re.sub(r'-([a-z])', lambda m: m[1].upper(), n)
    n = n.replace('-', '_')
    n = re.sub(r'ID(?=[A-Z_]|$)', 'Id', n)
    return re.sub(r'(?<=[a-z0-9])([A-Z])', lambda m: '_' + m[1].lower(), n)


def of_function(p):
    """Is p in the folder of a function's proof?"""
    return 'proofs' in p.parts and p.name in ('Proof.antt', 'Invariants.antt', 'Answers.antt')


def after_goal(n, text):
    return n == 'returns' or n.startswith(('returns-', 'loop-', 'invariant-', 'decreases-')) or \
        re.search(r'\.Need-%s(?![\w-])' % re.escape(n), text) is not None


def declared(text):
    block = False
    for line in text.split('\n'):
        if not line.strip() or line.lstrip().startswith('--'):
            continue
        if line[0].isspace():
            m = FIELD.match(line)
            if m and (block or not m[1].startswith('let ')):
                yield from m[1].split()
            continue
        block = re.match(r'(?:pub |abbrev |unfoldable )*(record|data)\s+(?:pub )?(\S+)', line)
        if block:
            yield block[2]
        elif not line.startswith('use') and (m := DECL.match(line)):
            yield from m[2].split()


texts = {p: p.read_text() for p in files('.antt', '.rt', '.edit')}
names, kept = set(), {}
for p, t in texts.items():
    if p.suffix != '.antt':
        continue
    own = {n for n in declared(t) if re.fullmatch(r"[+\w'-]+", n) and n not in ('pub', 'let', 'module')}
    if of_function(p):
        kept[p] = {n for n in own if after_goal(n, t)}
        own -= kept[p]
    names |= own
imported = set()
for p, t in texts.items():
    for module, items in re.findall(r'^(?:ghost )?use (\S+?)\.\{([^}]*)\}', t, re.M):
        if not module.startswith('Rattle.') or module.startswith('Rattle.std'):
            imported |= {i.split(' as ')[0].strip() for i in items.split(',')}
to = {n: snake(n) for n in names if snake(n) != n and n not in imported}


def renamed(path, text, keep=()):
    def one(m):
        n = m[0]
        for (part, name), new in CLASHES.items():
            if n == name and part in path:
                return new
        return n if n in keep else to.get(n, n)
    return TOKEN.sub(one, text)


def antt(path, text, keep=()):
    return '\n'.join(renamed(path, l, keep | {n for n in to if '-' in n}) if l.lstrip().startswith('--')
                     else renamed(path, l, keep) for l in text.split('\n'))


def rt(path, text):
    """Imports and clauses: what stands in braces behind ghost use, requires, ensures, and ghost fields."""
    out, at = [], 0
    for m in re.finditer(r'^ghost use [^;]*;|^\s*(?:requires|ensures)\*?(?: \w+)? \{|^\s*ghost \w+: \{', text, re.M):
        if m.start() < at:
            continue
        end = m.end()
        if not m[0].startswith('ghost use'):
            depth = 1
            while depth:
                depth += {'{': 1, '}': -1}.get(text[end], 0)
                end += 1
        out += [text[at:m.start()], renamed(path, text[m.start():end])]
        at = end
    return ''.join(out) + text[at:]


def comments(path, text):
    """Names in camel case in the comments of code."""
    return re.sub(r'//.*', lambda m: renamed(path, m[0], {n for n in to if not re.search('[a-z][A-Z]', n)}), text)


def edit(path, text):
    spec = re.search(r'^file: (specs|proofs)/', text, re.M)
    def line(m):
        body = m[2]
        if spec:
            return m[1] + renamed(path, body)
        return m[1] + renamed(path, body, {n for n in to if '-' in n and '{' not in body})
    return re.sub(r'^(old: |new: )(.*)$', line, text, flags=re.M)


for p, t in texts.items():
    name = str(p)
    new = antt(name, t, kept.get(p, set())) if p.suffix == '.antt' else edit(name, t) if p.suffix == '.edit' else \
        comments(name, rt(name, t))
    if new != t:
        p.write_text(new)
def cited(m):
    crate = re.match(r'`(\w+):', m[0])
    for (part, name), new in CLASHES.items():
        if crate and part.startswith(crate[1] + '/') and m[0] == '`%s:%s`' % (crate[1], name):
            return '`%s:%s`' % (crate[1], new)
    return renamed('', m[0])


for p in [ROOT / 'README.md', *sorted((ROOT / 'docs').rglob('*.md'))]:
    t = p.read_text()
    new = re.sub(r'`[^`\n]+`', cited, t)
    if new != t:
        p.write_text(new)
print('%d names, %d respelled' % (len(names), len(to)))
