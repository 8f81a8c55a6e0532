#!/usr/bin/env python3
"""Tries what README and docs tell a reader to type.

Every block of C is compiled, as C and as C++, and run, and has to print the next block of text. README's commands for
this kind of machine are run as they stand, in a folder that looks like the repository's root to them; `make list` has
to print its listing, and a bench is built from what `make install` leaves under an empty prefix. Every link leads to
a file, and a link to a definition to the file that has it. docs/RULES.md has every kind of the message table once, with
its codes, pil.h and pil_names.h name them alike, and have as many refusals, stops, states and events. Use: pages.py CC
CXX [RUNNER..], a runner where the machine is not x86-64."""
import os, pathlib, re, shutil, subprocess, sys

root = pathlib.Path(__file__).resolve().parent.parent
pages = [root / 'README.md', *sorted((root / 'docs').rglob('*.md'))]
cc, cxx, runner = sys.argv[1], sys.argv[2], sys.argv[3:]
scratch = root / 'target' / 'host' / 'pages'
machine = 'other' if runner else 'x86_64'
flags = ['-O2', '-Wall', '-Wextra', '-Werror', '-I%s' % (root / 'host')]
lib = str(root / 'target' / 'staticlib' / 'libpil.a')
tried = {'links': 0, 'programs': 0, 'commands': 0}


def fail(why):
    sys.exit('pages: ' + why)


def run(command, env={}, **more):
    """What a command prints, free of the make that called this."""
    free = {name: value for name, value in os.environ.items() if not name.startswith('MAKE')}
    done = subprocess.run(command, stdout=subprocess.PIPE, text=True, env={**free, **env}, **more)
    if done.returncode:
        fail('%s ended with %d' % (command, done.returncode))
    return done.stdout


def blocks(page):
    """The fenced blocks of a page: (words behind the fence, text)."""
    fenced = re.findall(r'^```([^\n]*)\n(.*?)^```$', page.read_text(), re.M | re.S)
    return [(words.strip(), text) for words, text in fenced]


def compare(where, printed, expected):
    if printed != expected:
        fail('%s prints\n%s' % (where, printed))


def links(page):
    for target in re.findall(r'\]\(([^)#\s]+)', page.read_text()):
        if not re.match(r'[a-z]+:', target):
            tried['links'] += 1
            (page.parent / target).exists() or fail('%s links to %s, which is not there' % (page.name, target))
    for name, target in re.findall(r'\[`(\w+)`\]\(([^)]+\.antt)\)', page.read_text()):
        definition = r'^(?:unfoldable |abbrev )?pub (?:record )?%s(?: \([^)]*\))* :' % name
        if not re.search(definition, (page.parent / target).read_text(), re.M):
            fail('%s: %s does not define %s' % (page.name, target, name))


def kinds():
    """The kinds of the message table, those of RULES.md and those of the headers."""
    table = (root / 'crates' / 'frame' / 'specs' / 'Messages.antt').read_text()
    rows = re.findall(r'row \d+ 0x(\w+) 0x(\w+) ∷  -- (\w+),', table)
    asked = sorted((name, first if first == last else first + '-' + last) for first, last, name in rows)
    told = sorted(re.findall(r'\| ([A-Z]{3}) \| ([0-9a-f-]+) \|', (root / 'docs' / 'RULES.md').read_text()))
    len(asked) == 42 or fail('the message table is not read')
    told == asked or fail('docs/RULES.md and the message table differ in %s' % sorted(set(told) ^ set(asked)))
    numbered = re.findall(r'PIL_KIND_(\w+) = \d+,', (root / 'host' / 'pil.h').read_text())
    named = re.findall(r'"([^"]+)"', (root / 'host' / 'pil_names.h').read_text())[:43]
    numbered[1:] == named[1:] == [name for _, _, name in rows] or fail('pil.h and pil_names.h name other kinds')


def counts():
    """Each array of pil_names.h has a name for every number that pil.h has, and no more."""
    header, names = (root / 'host' / 'pil.h').read_text(), (root / 'host' / 'pil_names.h').read_text()
    for array, first in (('refusal_texts', 'PIL_ACCEPTED'), ('stop_texts', 'PIL_STOP_NO_HOP'),
                         ('talker_texts', 'PIL_TALKER_IDLE'), ('service_texts', 'PIL_SERVICE_NONE'),
                         ('remote_texts', 'PIL_LOCAL'), ('event_texts', 'PIL_EVENT_NONE')):
        numbers = next(enum for enum in re.findall(r'^enum \{(.*?)^\};', header, re.M | re.S) if first in enum)
        listed = re.search(r'pil_%s\[\d+\] = \{(.*?)\};' % array, names, re.S)[1]
        named, numbered = re.findall(r'"([^"]+)"', listed), re.findall(r'PIL_\w+ = \d+', numbers)
        len(named) == len(numbered) and '?' not in named or fail('pil_%s and pil.h differ in number' % array)


def programs(page):
    """Each block of C, with the text that it has to print."""
    found = blocks(page)
    for at, (words, text) in enumerate(found):
        if words == 'c':
            expected = next((t for w, t in found[at:] if w == 'text'), None)
            expected is not None or fail('%s has C without its output' % page.name)
            yield text, expected


def compiled(page, text, expected):
    source = scratch / 'bench.c'
    source.write_text(text)
    for compiler in ([cc, '-std=c11'], [cxx, '-x', 'c++', '-std=c++17']):
        program = str(scratch / 'tried')
        run([*compiler, *flags, str(source), '-x', 'none', lib, '-static', '-o', program])
        compare('%s, by %s,' % (page.name, compiler[0]), run([*runner, program]), expected)
        tried['programs'] += 1


def command(words):
    """README's commands behind a fence of these words."""
    found = [t for w, t in blocks(root / 'README.md') if w == 'sh ' + words]
    len(found) == 1 or fail('README has no commands for %s' % words)
    tried['commands'] += 1
    return found[0]


def files(folder):
    return sorted(str(f.relative_to(folder)) for f in folder.rglob('*') if not f.is_dir())


def installed(expected):
    """make install under an empty prefix, README's command there, and make uninstall; then with DESTDIR."""
    prefix, stage = scratch / 'prefix', scratch / 'stage'
    run(['make', '-s', 'install', 'PREFIX=%s' % prefix], cwd=root)
    line = command('pkg-config')
    if machine != 'x86_64':
        line = line.replace('cc ', cc + ' -static ', 1)
    run(['sh', '-e', '-c', line], cwd=scratch, env={'PKG_CONFIG_PATH': str(prefix / 'lib' / 'pkgconfig')})
    compare('the bench by pkg-config', run([*runner, str(scratch / 'bench')]), expected)
    run(['make', '-s', 'install', 'PREFIX=/usr', 'DESTDIR=%s' % stage], cwd=root)
    files(stage / 'usr') == files(prefix) or fail('make install with DESTDIR leaves other files')
    'prefix=/usr\n' in (stage / 'usr' / 'lib' / 'pkgconfig' / 'pil.pc').read_text() or fail('pil.pc has DESTDIR in it')
    run(['make', '-s', 'uninstall', 'PREFIX=%s' % prefix], cwd=root)
    files(prefix) and fail('make uninstall leaves %s' % files(prefix))


def commands(text, expected):
    """README's own commands, on README's bench."""
    for name in ('Makefile', 'host', 'target', 'crates', 'crates.txt', 'scripts'):
        (scratch / name).symlink_to(root / name)
    (scratch / 'bench.c').write_text(text)
    printed = run(['sh', '-e', '-c', command(machine)], cwd=scratch)
    compare('README, for %s,' % machine, printed, expected)
    listing = next(t for w, t in blocks(root / 'README.md') if w == 'text')
    compare('make list', run(['make', '-s', 'list'], cwd=scratch), listing)
    tried['commands'] += 1
    installed(expected)


shutil.rmtree(scratch, ignore_errors=True)
os.makedirs(scratch)
for page in pages:
    links(page)
    for text, expected in programs(page):
        compiled(page, text, expected)
kinds()
counts()
commands(*next(programs(root / 'README.md')))
print('pages: %(links)d links, %(programs)d programs and %(commands)d commands, as the pages say' % tried)
