"""Runs the commands that a document shows: in its indented blocks a line `$ COMMAND` and behind it, up to the next such line or
the block's end, exactly what it writes. Usage: commands.py DOCUMENT"""
import re
import subprocess
import sys


def commands(path):
    with open(path, encoding='utf-8') as document:
        text = document.read()
    for block in re.findall(r'(?m)(?:^    .*\n)+', text):
        lines = [line[4:] for line in block.splitlines()]
        shown = None
        for line in lines:
            if line.startswith('$ '):
                if shown:
                    yield shown
                shown = (line[2:], [])
            elif shown:
                shown[1].append(line)
        if shown:
            yield shown


def main():
    path, = sys.argv[1:]
    ran = 0
    for command, told in commands(path):
        done = subprocess.run(['bash', '-c', command], stdout=subprocess.PIPE, text=True, check=False)
        if done.stdout.splitlines() != told:
            sys.exit(f'{path}: {command}\nwrote\n{done.stdout}where the document has\n' + '\n'.join(told))
        ran += 1
    if not ran:
        sys.exit(f'{path}: no command found')
    print(f'{path}: {ran} commands write what it says')


main()
