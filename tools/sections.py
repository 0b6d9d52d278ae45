#!/usr/bin/env python3
"""The list that the program `replay` is run on, crates/replay/stdin, and what it has to answer, crates/replay/stdout: both in
sections, each of which starts with a line `# NAME`. The list makers beside it write a section of both files and leave the others.

  sections.py NAME FOLDER
      puts FOLDER/stdin and FOLDER/stdout in the place of a section.
"""
import os, sys

TOP = os.path.join(os.path.dirname(os.path.abspath(__file__)), '..', 'crates', 'replay')

def read(path):
    """The lines of each section, by its name."""
    sections = {}
    for line in open(path) if os.path.exists(path) else []:
        if line.startswith('# '):
            sections[line[2:-1]] = []
        else:
            sections[list(sections)[-1]].append(line)
    return sections

def replace(name, lines, answers):
    assert len(lines) == len(answers)
    os.makedirs(TOP, exist_ok=True)
    for file, new in ('stdin', lines), ('stdout', answers):
        path = os.path.join(TOP, file)
        sections = read(path)
        sections[name] = [line + '\n' for line in new]
        open(path, 'w').write(''.join('# %s\n' % n + ''.join(s) for n, s in sections.items()))

if __name__ == '__main__':
    replace(sys.argv[1], *(open(os.path.join(sys.argv[2], file)).read().splitlines() for file in ('stdin', 'stdout')))
