"""Holds docs/CLAIMS.md to the tree: every name in it is declared where it says, every must-fail edit is named in it, and so
is every promise. The functions that docs/EXCEPTIONS.md lists are there too."""
import collections
import glob
import os
import re
import sys

from antt import read

CLAIMS = 'docs/CLAIMS.md'
EXCEPTIONS = 'docs/EXCEPTIONS.md'
PROMISES = 'crates/promises/proofs'
DEMANDS = f'{PROMISES}/Demands.antt'
LANGUAGE = {'requires', 'ensures', 'E', 'H', 'N', 'P'}
TEMPLATES = {'crates/CRATE/must-fail/LABEL.edit'}
FILE = re.compile(r'\.(antt|rt|rs|md|sh|h|c)$')
EDIT = re.compile(r'^([a-z_]+)/([a-z0-9_]+)$')
NAME = re.compile(r"^[^\W\d][\w'-]*$")
CODE = re.compile(r'\b(?:fn|struct|enum|const|mod)\s+(\w+)')
GROUP = re.compile(r'((?:`[^`]+`(?:, | and )?)+) ?\(`([^`]+\.antt)`\)')
FIELDS = {'slip': 'NoSlip', 'neighbour': 'NoNeighbour'}

faults = []


def fault(why):
    faults.append(why)


def quoted(text):
    return re.findall(r'`([^`]+)`', text)


def index():
    """Where each name is declared: in which antt files, and in which crates' code."""
    declared, code = collections.defaultdict(set), collections.defaultdict(set)
    for path in glob.glob('crates/*/specs/**/*.antt', recursive=True) + glob.glob('crates/*/proofs/**/*.antt', recursive=True):
        for declaration in read(path).declarations:
            for name in declaration.brings:
                declared[name].add(path)
    for path in glob.glob('crates/*/src/**/*.rt', recursive=True):
        with open(path, encoding='utf-8') as source:
            for name in CODE.findall(source.read()):
                code[name].add(path)
    return declared, code


def found(path):
    """The file that a path in the document means: itself, one under crates/, or a bare one of the promises."""
    for start in ('', 'crates/', f'{PROMISES}/'):
        if os.path.exists(start + path):
            return start + path
    ends = glob.glob(f'crates/*/{path}')
    return ends[0] if ends else None


def fields(path, name):
    return next((d.brings for d in read(path).declarations if d.name == name), set())


def check_files(text, declared):
    """Names that stand before a file in brackets are declared in that file; answers them."""
    placed = set()
    for names, path in GROUP.findall(text):
        file = found(path)
        for name in quoted(names):
            placed.add(name)
            if file and NAME.match(name) and file not in declared[name]:
                fault(f'`{name}` is not declared in {file}')
    return placed


def check_fields(text, declared):
    for word, record in FIELDS.items():
        for names in re.findall(rf'\b{word}s? ((?:`[^`]+`(?:, )?)+)', text):
            for name in quoted(names):
                if not any(name in fields(path, record) for path in declared[record]):
                    fault(f'`{name}` is no {word}: {record} has no such field')


def check_name(name, placed, declared, code):
    if FILE.search(name):
        if not found(name):
            fault(f'there is no file `{name}`')
    elif name.endswith('..'):
        if not any(known.startswith(name[:-2]) for known in declared):
            fault(f'no name begins with `{name[:-2]}`')
    elif '::' in name:
        room, last = name.split('::')[0], name.split('::')[-1]
        if not any(path.startswith(f'crates/{room}/') for path in code[last]):
            fault(f'`{last}` is not in the code of {room}')
    elif re.match(r"^[^\W\d][\w'-]*\.[\w'-]+$", name):
        owner, part = name.split('.')
        if not any(part in fields(path, owner) for path in declared[owner]):
            fault(f'`{owner}` has no `{part}`')
    elif os.path.isdir(f'crates/{name}'):
        pass
    elif NAME.match(name) and name not in LANGUAGE and not declared[name] and not code[name]:
        fault(f'`{name}` is declared nowhere under crates/')
    elif NAME.match(name) and re.search('[-_]', name) and name not in placed and declared[name]:
        # without a path: a definition, or a theorem of the demands
        if not any(path == DEMANDS or '/specs/' in path for path in declared[name]):
            fault(f'`{name}` is not in {DEMANDS}: say in brackets in which file it is')


def check_edits(names):
    there = {'/'.join(re.match(r'crates/(.*)/must-fail/(.*)\.edit', path).groups())
             for path in glob.glob('crates/*/must-fail/*.edit')}
    told = {name for name in names if EDIT.match(name)}
    for edit in sorted(told - there):
        fault(f'there is no edit `{edit}`')
    for edit in sorted(there - told):
        fault(f'the edit `{edit}` is not named')
    return len(there)


def check_promises(names):
    promised = {d.name for path in glob.glob(f'{PROMISES}/*.antt') for d in read(path).declarations if d.public}
    for name in sorted(promised - set(names)):
        fault(f'the promise `{name}` is not named')
    return len(promised)


def check_exceptions(code):
    """The first column of its table: functions, of which a later one may leave out the path of the one before it."""
    with open(EXCEPTIONS, encoding='utf-8') as document:
        rows = re.findall(r'(?m)^\| (`.*?) \|', document.read())
    for row in rows:
        room = None
        for name in quoted(row):
            room = name.split('::')[0] if '::' in name else room
            if not any(path.startswith(f'crates/{room}/') for path in code[name.split('::')[-1]]):
                fault(f'{EXCEPTIONS}: `{name}` is not in the code')


def main():
    with open(CLAIMS, encoding='utf-8') as document:
        text = document.read()
    declared, code = index()
    check_exceptions(code)
    names = [name for name in dict.fromkeys(quoted(text)) if name not in TEMPLATES]
    placed = check_files(text, declared)
    check_fields(text, declared)
    for name in names:
        if not EDIT.match(name):
            check_name(name, placed, declared, code)
    edits = check_edits(names)
    promises = check_promises(names)
    for why in faults:
        print(f'claims: {why}')
    if faults:
        sys.exit(f'claims: {len(faults)} faults')
    print(f'claims: {len(names)} names in {CLAIMS}, among them {edits} edits and {promises} promises: all in the tree')


main()
