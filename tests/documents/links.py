"""Every file that a document names is there: links and pictures, and paths in backticks or in plain words that begin with a folder
of the repository. A word in capitals in a path, as CRATE, stands for any name; target/ is made by the build."""
import glob
import os
import re
import sys

FOLDERS = r'(?:crates|docs|examples|include|second|tests|\.ci)'
PATH = re.compile(rf'(?<![\w/.$-])({FOLDERS}/[\w./*+-]*[\w*/])')
LINK = re.compile(r'\]\(([^)#:]+?)(?:#[^)]*)?\)')
HISTORY = 'docs/landings/'  # tells of files as they were


def named(document, text):
    for link in LINK.findall(text):
        yield os.path.normpath(os.path.join(os.path.dirname(document), link))
    yield from PATH.findall(text)


def edit(path):
    """The file of an edit that is named by crate and label, where the crate has the name of a folder."""
    return re.sub(r'^(\w+)/(\w+)$', r'crates/\1/must-fail/\2.edit', path)


def there(path):
    pattern = re.sub(r'\b[A-Z]{2,}\b(?!\.md)', '*', path)
    return os.path.exists(path) or os.path.exists(edit(path)) or bool(glob.glob(pattern)) or '/target/' in path + '/'


def main():
    documents = sorted(path for path in glob.glob('**/*.md', recursive=True) if 'target/' not in path)
    count, faults = 0, []
    for document in documents:
        if document.startswith(HISTORY):
            continue
        with open(document, encoding='utf-8') as source:
            text = source.read()
        for path in sorted(set(named(document, text))):
            count += 1
            if not there(path):
                faults.append(f'{document}: there is no {path}')
    for why in faults:
        print(f'links: {why}')
    if faults:
        sys.exit(f'links: {len(faults)} faults')
    print(f'links: {count} files named in {len(documents)} documents are there')


main()
