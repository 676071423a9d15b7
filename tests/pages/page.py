"""What a page has: paragraphs, cells of tables, blocks of code."""
import re
from collections import namedtuple

from tree import read

Span = namedtuple('Span', 'page line text column under files')


class Page:
    """The paragraphs, cells and blocks of code of a page, each with what it stands under."""

    def __init__(self, path):
        self.path, self.spans, self.code, self.headings, self.rows = path, [], [], set(), []
        self.under, self.files = (), ()  # the crates in bold type at the head of a paragraph, and the files that the section names
        for number, kind, lines in blocks(read(path).split('\n')):
            getattr(self, 'add_' + kind)(number, lines)
        self.bound = set(re.findall(r'\blet (?:mut )?(\w+)', '\n'.join(line for _, lines in self.code for line in lines)))

    def add(self, number, text, column=''):
        self.spans.append(Span(self, number, text, column, self.under, self.files))

    def add_heading(self, number, lines):
        self.under, self.files = (), ()
        self.headings.update(line.strip('# ') for line in lines)
        self.add(number, '\n'.join(lines))

    def add_prose(self, number, lines):
        text = '\n'.join(lines)
        bold = re.match(r'\*\*[a-z]\w*\.?\*\*(?:, \*\*[a-z]\w*\.?\*\*)*', text)
        self.under = tuple(re.findall(r'\w+', bold[0])) if bold else self.under
        self.files += tuple(re.findall(r'`(?:crates/)?(\w+)/(?:specs/)?(\w+)(?:\.antt)?`', text))
        self.add(number, text)

    def add_table(self, number, lines):
        head, _, *rows = ([cell.strip() for cell in line.strip().strip('|').split('|')] for line in lines)
        self.add(number, lines[0])
        for line, row in enumerate(rows, number + 2):
            self.rows.append(row[0])
            for column, cell in zip(head, row):
                self.add(line, cell, column)

    def add_code(self, number, lines):
        self.code.append((number, lines))


def blocks(lines):
    """Runs of lines of one kind, each with the number of its first line."""
    run, before, fenced = [], 'blank', False
    for number, line in enumerate(lines + [''], 1):
        fence = line.startswith('```')
        if fence or not line.strip() and not fenced:
            kind = 'blank'
        elif fenced or line.startswith('    ') and before in ('blank', 'code', 'heading'):
            kind = 'code'
        else:
            kind = 'table' if line.startswith('|') else 'heading' if line.startswith('#') else 'prose'
        if run and kind != before:
            yield number - len(run), before, run
            run = []
        if kind != 'blank':
            run.append(line)
        before, fenced = kind, fenced != fence
