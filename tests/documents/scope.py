"""Holds docs/scope.md and the definitions to each other: a definition's comment that refers to a section, as `(scope 4.3)`, names
one that is there; every file of definitions that promises may rest on refers to one; and the files that the scope's last
table names are there."""
import glob
import re
import sys

SCOPE = 'docs/scope.md'
REFERENCE = re.compile(r'\(scope ([0-9., and]+)\)')

faults = []


def sections(text):
    chapters = re.findall(r'(?m)^## (\d+) ', text)
    return set(chapters) | set(re.findall(r'(?m)^\*\*(\d+\.\d+)\b', text))


def definitions():
    """The files of definitions but those for the code alone, and those that only list modules."""
    for path in sorted(glob.glob('crates/*/specs/**/*.antt', recursive=True)):
        with open(path, encoding='utf-8') as source:
            text = source.read()
        lists = all(line.startswith(('pub mod ', '--')) for line in text.splitlines() if line)
        if '/specs/Code/' not in path and not lists:
            yield path, text


def check_references(known):
    count = 0
    for path, text in definitions():
        found = [number for numbers in REFERENCE.findall(re.sub(r'\n\s*--', '', text)) for number in re.findall(r'[\d.]+', numbers)]
        count += len(found)
        if not found:
            faults.append(f'{path} refers to no section of {SCOPE}')
        faults.extend(f'{path}: there is no section {number}' for number in sorted(set(found) - known))
    return count


def check_table(text):
    table = text[text.index('Where each section is rendered'):]
    for numbers, rooms in re.findall(r'(?m)^\| ([\d., to]+) \| (.*) \|$', table):
        for room in rooms.split('; '):
            names = re.match(r'((?:`[a-z]+`(?:, )?)+): ([A-Z]\w*)((?:, [A-Z]\w*)*)', room)
            if not names:
                continue
            for crate in re.findall(r'`([a-z]+)`', names.group(1)):
                for name in [names.group(2)] + re.findall(r', (\w+)', names.group(3)):
                    if not glob.glob(f'crates/{crate}/specs/**/{name}.antt', recursive=True):
                        faults.append(f'{SCOPE}, section {numbers}: crates/{crate}/specs has no {name}.antt')


def main():
    with open(SCOPE, encoding='utf-8') as document:
        text = document.read()
    known = sections(text)
    count = check_references(known)
    check_table(text)
    for why in faults:
        print(f'scope: {why}')
    if faults:
        sys.exit(f'scope: {len(faults)} faults')
    print(f'scope: {len(known)} sections; {count} references to them in the definitions')


main()
