"""Counts the lines of definitions that the promises rest on. A promise is a theorem in crates/promises/proofs; proofs/Laws holds
what they cite. A definition counts when a promise's statement names it, or a definition that counts does; a record or a data
type counts whole. Comments, blank lines and imports do not count."""
import collections
import glob
import os
import re
import sys

from antt import read, specs_file, words

PROMISES = 'crates/promises/proofs'
HEAD = 'crates/promises/src/lib.rt'
# what tries the definitions and promises nothing more
TRIALS = {'Examples', 'Binding', 'Slips', 'Controls', 'Neighbours', 'WrongPrograms'}
DEMANDS = 'Demands'


def meant(path, name):
    """The declarations of a file that a name means: those of that name, or else the one that has it as a constructor. (A field
    stands only where its record's name or a function over it does.)"""
    declarations = read(path).declarations
    found = [d for d in declarations if d.name == name] or [d for d in declarations if name in d.brings]
    return [(path, d) for d in found] if len(found) == 1 or found and found[0].name == name else []


def resolve(file, word, declared):
    """The declarations that a word of a file means, as (path, declaration)."""
    found = meant(file.path, word)
    for local, crate, module, name in file.imports:
        if word == local:
            found += within(crate, module, name, declared)
    return found


def within(crate, module, name, declared):
    """What a name of a specs module means; the types that the code declares are noted."""
    path = specs_file(crate, module)
    if path is None:
        declared.add(f'{crate}: {module.split(".")[1]}')
        return []
    found = meant(path, name) or meant(path, module.split('.')[-1])
    if not found and not any(name in d.brings for d in read(path).declarations):
        sys.exit(f'belief: {path} has no {name}')
    return found


def named(file, text, declared):
    """The definitions that a text in a file names."""
    for word in words(text):
        yield from resolve(file, word, declared)
        alias, _, name = word.partition('.')
        if name and alias in file.aliases:
            yield from within(*file.aliases[alias], name, declared)


def stated(files):
    """What the statements of the promises in these files name, and the types of the code among it."""
    declared, found = set(), []
    for path in files:
        file = read(path)
        for _, crate, module, name in file.imports:
            within(crate, module, name, set())
        promised = [d for d in file.declarations if d.public]
        statements = [line for d in promised for line in d.statement] + (file.sections if promised else [])
        found += [(of, d) for of, d in named(file, '\n'.join(statements), declared) if '/specs/' in of]
    return found, declared


def closure(files, skipping):
    """The definitions that they rest on, with their lines; those in the folders to be skipped are not followed."""
    todo, declared = stated(files)
    reached = {}
    while todo:
        path, declaration = todo.pop()
        if (path, declaration.name) in reached or any(folder in path for folder in skipping):
            continue
        reached[path, declaration.name] = len(declaration)
        todo += named(read(path), '\n'.join(declaration.lines), declared)
    return reached, declared


def by_crate(reached):
    lines = collections.Counter()
    for (path, _), count in reached.items():
        lines[path.split('/')[1]] += count
    return lines


def show(reached):
    for path in sorted({path for path, _ in reached}):
        names = {name: lines for (of, name), lines in reached.items() if of == path}
        print(f'{sum(names.values()):5} {path}: {" ".join(sorted(names))}')


def allowed(what):
    """The number that the head of crates/promises gives: `the WHAT rest on at most N lines`."""
    with open(HEAD, encoding='utf-8') as head:
        words = ' '.join(head.read().replace('//', ' ').split())
    said = re.search(rf'{what} rest on at most ([0-9,]+) lines', words)
    if not said:
        sys.exit(f'belief: {HEAD} does not say "{what} rest on at most N lines"')
    return int(said.group(1).replace(',', ''))


def main():
    names = {path: os.path.basename(path)[:-len('.antt')] for path in sorted(glob.glob(f'{PROMISES}/*.antt'))}
    files = [path for path, name in names.items() if name not in TRIALS]
    demands, _ = closure([path for path in files if names[path] == DEMANDS], ['/specs/Twins/'])
    believed, declared = closure(files, ['/specs/Twins/'])
    everything, _ = closure(files, [])
    columns = [by_crate(reached) for reached in (demands, believed, everything)]
    print('definitions in lines:      demands  all promises  with the twins that a theorem ties to them')
    for crate in sorted(columns[2]):
        print(f'  {crate:20}' + ''.join(f'{column[crate]:13}' for column in columns))
    totals = [sum(column.values()) for column in columns]
    print(f'  {"in all":20}' + ''.join(f'{total:13}' for total in totals) + f'  and {len(declared)} types that the code declares')
    if '--names' in sys.argv:
        show(believed)
        print('declared by the code:', ', '.join(sorted(declared)))
    hidden = sorted(f'{path}: {name}' for path, name in everything if '/specs/Code/' in path)
    if hidden:
        sys.exit('belief: promises rest on definitions that are for the code alone:\n  ' + '\n  '.join(hidden))
    for what, total in (('demands', totals[0]), ('promises', totals[1])):
        if total > allowed(what):
            sys.exit(f'belief: the {what} rest on {total} lines, where {HEAD} says at most {allowed(what)}')


main()
