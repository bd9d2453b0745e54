"""Reads antt files just far enough for the tests of the documents: which names a file declares, on which lines, with which
words, and which names it takes from the definitions (specs) of which crate."""
import functools
import os
import re

WORDS = re.compile(r'[^\s(){}\[\],;λ]+')
MODIFIERS = {'pub', 'abbrev', 'unfoldable', 'private'}
SPECS = re.compile(r'^use Rattle\.([a-z_]+)\.specs\.([^\s{]+?)(?:\.\{(.*)\}| as (\S+))?$', re.S)


def words(text):
    """The words of a text; of a dotted one its parts too."""
    found = set()
    for word in WORDS.findall(text):
        found.add(word.strip('.'))
        found.update(part for part in word.split('.') if part)
    return found


class Declaration:
    """One declaration: its name, what it brings along (constructors, fields), its lines, its statement."""

    def __init__(self, name, public, is_type):
        self.name, self.public, self.is_type = name, public, is_type
        self.brings, self.lines, self.statement = {name}, [], []
        self.in_statement = True

    def add(self, line, clause=False):
        self.in_statement = self.in_statement and not clause
        self.lines.append(line)
        if self.is_type or self.in_statement:
            self.statement.append(line)
        if self.is_type and len(self.lines) > 1:
            brought = re.match(r'\s+(?:pub )?((?:\S+ )+?):(?: |$)', line + ' ')
            if brought:
                self.brings.update(brought.group(1).split())

    def __len__(self):
        return len(self.lines)


class File:
    """The declarations of a file, in order; its imports from specs modules; the parameters of its sections."""

    def __init__(self, path):
        self.path, self.declarations, self.sections = path, [], []
        self.imports, self.aliases = [], {}
        bases, opening, current = [0], False, None
        for line in without_comments(path):
            indent = len(line) - len(line.lstrip())
            if opening and indent > bases[-1]:
                bases.append(indent)
            opening = False
            while indent < bases[-1]:
                bases.pop()
            if indent > bases[-1]:
                if current is not None:
                    current.add(line)
                continue
            first = next(word for word in line.split() if word not in MODIFIERS)
            if first in ('mutual', 'module'):
                opening, current = True, None
                if first == 'module':
                    self.sections.append(line)
            elif first in ('use', 'mod'):
                current = None
                self.take(line.strip())
            elif first == 'unfolding' and current is not None:
                current.add(line, clause=True)
            else:
                current = self.declare(line, current)

    def declare(self, line, current):
        heads = line.split()
        modifiers = 0
        while heads[modifiers] in MODIFIERS:
            modifiers += 1
        is_type = heads[modifiers] in ('record', 'data')
        name = heads[modifiers + 1] if is_type else heads[modifiers]
        if not modifiers and not is_type:
            earlier = [d for d in self.declarations if d.name == name]
            if earlier:
                earlier[-1].add(line, clause=True)
                return earlier[-1]
        declared = Declaration(name, 'pub' in heads[:modifiers], is_type)
        declared.add(line)
        self.declarations.append(declared)
        return declared

    def take(self, line):
        match = SPECS.match(line)
        if not match:
            return
        crate, module, names, alias = match.groups()
        if not os.path.isdir(os.path.join('crates', crate)):
            return  # of the language's library
        if names is None:
            self.aliases[alias or module.split('.')[-1]] = (crate, module)
            return
        for name in names.split(','):
            name, _, local = name.strip().partition(' as ')
            self.imports.append((local or name, crate, module, name))


def without_comments(path):
    with open(path, encoding='utf-8') as source:
        for line in source:
            line = re.sub(r'(^|\s)--(\s.*)?$', '', line.rstrip('\n')).rstrip()
            if line:
                yield line


@functools.lru_cache(maxsize=None)
def read(path):
    return File(path)


def specs_file(crate, module):
    """The file of a specs module, and what of its name stands inside the file; none for a type that the code declares."""
    parts = module.split('.')
    for count in range(len(parts), 0, -1):
        path = os.path.join('crates', crate, 'specs', *parts[:count]) + '.antt'
        if os.path.exists(path):
            return path
    return None
