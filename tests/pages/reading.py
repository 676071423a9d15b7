"""What a name on a page is."""
import re
from collections import namedtuple
from pathlib import Path

from tree import ANY, FILES, HOME, KEYWORDS, NUMBER, TOOLS, WORD, in_full

# Notation that the pages explain, which has no name in it: symbols, and forms in which a word stands for any name.
NOTATION = {'≡', '×', '→', '&', '>>', '◌', 'r.name', 'x.now', 'x.old', 'x.new', 'CRATE/FILE', 'CRATE/NAME'}

# Cells of a column Refused that name no edit.
NO_EDIT = re.compile(r'the edits (?:under|of the rows) "[^"]+" .*|each edit (?:above|of `\w+`)|a write there is no program of the language'
                     r'|to be seen in the sources|a program whose output differs fails the gate')

FILE_NAME = re.compile(r'[\w.-]+\.(?:antt|c|edit|h|md|py|rs|rt|svg|txt)')
ITEM = re.compile(r'\b\w+(?:::\w+)+')
LINK = re.compile(r',?(?: and| or| to)? ')
NUMBERS = re.compile(rf' {NUMBER}(?:(?:, | and | to ){NUMBER})*')

Name = namedtuple('Name', 'text start end')


class Reading:
    """The names of a span. A rule gives what a name is, as a tuple that begins with its kind, or nothing where it does not explain the name."""

    def __init__(self, tree, span):
        self.tree, self.span = tree, span
        self.names = [Name(' '.join(name[1].split()), *name.span()) for name in re.finditer(r'`([^`]*[^`\s][^`]*)`', span.text)]
        self.crates = {word for name in self.names for word in re.split(r'[/:]', name.text) if word in tree.groups}
        self.files = [file for file in map(self.file, range(len(self.names))) if file]

    def between(self, i):
        """The text from the name before i to i."""
        return re.sub(r'\s+', ' ', self.span.text[self.names[i - 1].end if i else 0:self.names[i].start])

    def head(self, i):
        """The name before i in its list that says what i belongs to, with its first word: a case, a name with its crate, or a crate after "in"."""
        while i > 0 and LINK.fullmatch(self.between(i)):
            i -= 1
            first = re.match(r'(\w+)(?: \w+$|::\w|/\w+$|$)', self.names[i].text)
            if first and first[1] in {*self.tree.groups, *self.tree.cases.kinds} and (first[0] != first[1] or re.search(r'\b[Ii]n $', self.between(i))):
                return i, first[1]
        return None

    def file(self, i):
        """The file of definitions that i is: `CRATE/FILE`, or `FILE` in a list after one."""
        text, head = self.names[i].text, self.head(i)
        if head and '/' in self.names[head[0]].text and self.between(i) != ' ' and '/' not in text:
            text = f'{head[1]}/{text}'
        file = tuple(text.split('/'))
        return file if file in self.tree.specs else None

    def edit(self, crate, name):
        return (crate, name) in self.tree.edits and ('edit', crate, name)

    def item(self, crate, name, private=True):
        """A function, type or constant of a crate."""
        source = self.tree.sources[crate]
        if name in source.functions and (private or source.functions[name]):
            return ('function', crate, name)
        return name in (source.items if private else source.public) and ('item', crate, name)

    def definition(self, i, files):
        return any(self.names[i].text in self.tree.specs[file].names for file in files if file in self.tree.specs) and ('definition',)

    # ---- what the text around a name says of it: each gives None where it says nothing

    def listed(self, i, private=True):
        """What i is in the crate or file of the name at the head of its list."""
        text, head = self.names[i].text, self.head(i)
        if not head or text in self.tree.groups or re.search(r'[ /]|::', text):
            return None
        first = self.names[head[0]].text
        if ' ' in first:
            return self.is_case(i, head[1], text) and ('case',)
        if '/' in first:
            files = [self.file(j) for j in range(head[0], i)]
            return self.edit(head[1], text) or self.file(i) and ('file',) or self.definition(i, files)
        return self.item(head[1], text, private or '::' not in first)

    def owned(self, i):
        """Whether i belongs to what "`x` of `y`" or "`y`, its `x`" says."""
        text = self.names[i].text
        if self.between(i) == ', its ':
            owner = self.names[i - 1].text
        elif i + 1 < len(self.names) and self.between(i + 1) == ' of ':
            owner = self.names[i + 1].text
        else:
            return None
        if owner in self.tree.groups:
            return text in self.tree.definitions(owner) | self.tree.sources[owner].names and ('name',)
        if tuple(owner.split('/')) in self.tree.specs:
            return self.definition(i, [tuple(owner.split('/'))])
        return text in self.tree.fields[owner] and ('name',) if owner in self.tree.fields else None

    def beneath(self, i):
        """Under **crate.** a name before a colon, a point or a comma is a file of its definitions, and another one any name of the crate."""
        if not self.span.under:
            return None
        text, before, after = self.names[i].text, self.span.text[:self.names[i].start], self.span.text[self.names[i].end:]
        aside = before.count('(') > before.count(')')
        if text[0].isupper() and re.match(r'[:.,]', after) and not aside:
            return any((crate, text) in self.tree.specs for crate in self.span.under) and ('file',)
        return any(text in self.tree.definitions(crate) | self.tree.sources[crate].names or (HOME / 'crates' / crate / text).exists()
                   for crate in self.span.under if crate in self.tree.groups) and ('name',)

    # ---- forms of names that follow one rule

    def slashed(self, i):
        text = self.names[i].text
        file = tuple(text.split('/'))
        return file in self.tree.specs and ('file',) or len(file) == 2 and self.edit(*file) or self.tree.is_path(text) and ('path',)

    def file_name(self, i):
        """A file beside the page, beside one that the span names, or in a crate that it names."""
        folders = {Path('.'), Path('docs')} | {Path(name.text).parent for name in self.names if '/' in name.text}
        folders |= {Path('crates', crate, part) for crate in self.crates for part in ('specs', 'proofs', 'src')}
        text = self.names[i].text
        return any((HOME / folder / text).is_file() or ANY.search(str(folder)) and self.tree.is_path(f'{folder}/{text}') for folder in folders) and ('path',)

    def case(self, i):
        return self.is_case(i, *self.names[i].text.split()) and ('case',)

    def is_case(self, i, kind, name):
        """Whether there is a case of this kind and name, and where "to" stands before a number, each one up to it."""
        there = self.tree.cases.kinds[kind]
        if name.isdigit() and self.between(i) == ' to ':
            first = int(self.names[i - 1].text.split()[-1])
            return all(str(number) in there for number in range(first, int(name) + 1))
        return name in there or bool(ANY.fullmatch(name))

    def row(self, i):
        """A row of the packet's tables by its parts, the table perhaps that of a name before, with the numbers that follow."""
        tables, words = self.tree.cases.tables, self.names[i].text.split()
        named = [word for name in self.names[:i + 1] for word in name.text.split()[:1] if word in tables]
        numbers = NUMBERS.match(self.span.text, self.names[i].end)
        wanted = in_full(numbers[0]) if numbers else [None]
        parts = words[1:] if words[0] in tables else words
        return bool(named) and all(self.tree.cases.has_row(named[-1], parts, number) for number in wanted) and ('row',)

    def qualified(self, i):
        """`crate::item`, or a piece of code with such names."""
        text = self.names[i].text
        items = [self.tree.item(item) for item in ITEM.findall(text)]
        return all(items) and self.is_code(ITEM.sub('', text)) and items[0]

    def field(self, i):
        """Fields of the code, as `anchor.count`, the first perhaps of what the page's code binds."""
        first, *fields = self.names[i].text.split('.')
        return (first in self.tree.declared | self.span.page.bound and self.tree.declared.issuperset(fields)) and ('name',)

    def declared_in_c(self, i):
        text = self.names[i].text
        return text in self.tree.headers[text.split('_')[0].lower()] and ('header',)

    def printed(self, i):
        return self.tree.is_printed(self.names[i].text) and ('printed',)

    def command(self, i):
        return self.tree.is_command(self.names[i].text.split()) and ('command',)

    def form(self, i):
        """The rule that the form of the name asks for, if it does."""
        text, tree = self.names[i].text, self.tree
        words = text.split()
        prefix = re.fullmatch(r'([a-z]+|[A-Z]+)_\w+', text)
        if words[0] in TOOLS or len(words) > 1 and (words[0] in tree.scripts or words[0].startswith('target/') and tree.is_built(words[0])):
            return self.command
        if prefix and prefix[1].lower() in tree.headers and text not in tree.groups:
            return self.declared_in_c
        forms = (('(?:' + '|'.join(tree.cases.kinds) + r') \w+', self.case), (r'[A-Z_]+(?: [A-Z_]+)+', self.row), (r'[a-z ]+ \d+|N .*', self.printed),
                 (r'[\w.-]*/[\w./-]*', self.slashed), (FILE_NAME, self.file_name), (r'\w+(?:\.\w+)+', self.field),
                 (r'.*\w::\w.*', self.qualified))
        return next((rule for form, rule in forms if re.fullmatch(form, text)), None)

    # ---- names in any text

    def general(self, i):
        text, form = self.names[i].text, self.form(i)
        if text in NOTATION:
            return ('notation',)
        if form:
            return form(i)
        return self.plain(i) if re.fullmatch(r'[^\s(){}.:&]+', text) else self.piece(i)

    def piece(self, i):
        """A text that a program prints, or a piece of code."""
        text = self.names[i].text
        return (self.tree.is_printed(text) or self.is_code(text) and any(word in self.tree.words for word in WORD.findall(text))) and ('piece',)

    def is_code(self, text):
        """Whether each word is a name or stands for any, is a word of the language, or a variable of one letter."""
        known = self.tree.words | self.span.page.bound
        return all(len(word) == 1 or word in known or ANY.fullmatch(word) for word in WORD.findall(text))

    def plain(self, i):
        """One word."""
        text, tree = self.names[i].text, self.tree
        if text in tree.groups or text in tree.kit:
            return ('crate', text)
        for said in (self.listed(i), self.owned(i), self.beneath(i)):
            if said is not None:
                return said
        owners = [crate for crate, source in tree.sources.items() if text in source.functions]
        if len(owners) == 1:
            return ('function', owners[0], text)
        return (text in tree.defined or text in tree.declared or text in tree.imported or text in tree.used or text in KEYWORDS or re.fullmatch(r'\d+|\w', text)
                or text in tree.called_in_c or self.is_law(i) or self.is_ending(i) or self.is_case_file(i)
                or tree.is_path(text) or tree.is_printed(text)) and ('name',)

    def is_law(self, i):
        return any(self.names[i].text in self.tree.laws(crate) for crate in self.crates)

    def is_case_file(self, i):
        return FILES in re.findall(r'\w+', self.span.text) and self.names[i].text in self.tree.cases.kinds[FILES]

    def is_ending(self, i):
        """The end of names, as "ends in `_due`" says, or of one that goes on from the name before, as `jbuf_put` and `_get`."""
        text = self.names[i].text
        if self.between(i).endswith('ends in '):
            return any(name.endswith(text) for name in self.tree.defined)
        return text.startswith('_') and i and self.names[i - 1].text.rpartition('_')[0] + text in self.tree.called_in_c

    # ---- names in the columns of tables

    def defined(self, i):
        form = self.form(i)
        if form:
            return form in (self.slashed, self.file_name) and form(i)
        for said in (self.listed(i), self.owned(i)):
            if said is not None:
                return said
        return self.definition(i, self.files)

    def promised(self, i):
        """A public function, a private one after "in `crate`", or what a promise speaks of."""
        text = self.names[i].text
        crate = text.split('::')[0]
        if '::' in text and crate in self.tree.groups:
            return self.item(crate, text.split('::')[-1], private=False)
        for said in (self.listed(i, private=False), self.owned(i)):
            if said is not None:
                return said
        if text in self.tree.groups or ' ' in text or self.form(i):
            return self.general(i)
        return (text in self.tree.defined or text in KEYWORDS or self.is_law(i)) and ('name',)

    def refused(self, i):
        return self.edit(*self.names[i].text.split('/', 1)) if '/' in self.names[i].text else NO_EDIT.fullmatch(self.span.text) and self.general(i)

    def run(self, i):
        """A case, a program, what one prints, a function, a file, or a definition of a file that the section names."""
        text, listed = self.names[i].text, self.listed(i)
        if listed is not None or text.isdigit():
            return listed
        if re.fullmatch(r'[A-Z_]+', text):
            return self.row(i)
        if text in self.tree.groups:
            return not self.tree.is_library(text) and ('crate', text)
        if self.form(i):
            return self.general(i)
        return (self.is_case_file(i) or self.tree.is_printed(text)) and ('name',) or self.definition(i, self.span.files)

    def function(self, i):
        """A public function, by its crate or as a header declares it."""
        text = self.names[i].text
        if self.form(i) == self.declared_in_c:
            return self.declared_in_c(i) and self.item(text.split('_')[0], text, private=False)
        return self.promised(i)

    def column(self, i):
        return self.definition(i, self.span.files)

    COLUMNS = {
        'Defined': (defined, 'is not defined in the file that its cell names'),
        'Promised by': (promised, 'is no public function of its crate, and no definition'),
        'Promised': (promised, 'is no public function of its crate, and no definition'),
        'Promise in short': (promised, 'is no public function of its crate, and no definition'),
        'Function': (function, 'is no public function of its crate'),
        'Refused': (refused, 'is no must-fail edit'),
        'Run': (run, 'is no case'),
        'Column of the table': (column, 'is defined in no file that the section names'),
    }

    def name_faults(self, named):
        """The names that no rule explains. What the others are is added to named."""
        rule, fault = self.COLUMNS.get(self.span.column, (Reading.general, 'is not there'))
        for i, name in enumerate(self.names):
            what = rule(self, i)
            if what:
                named.add(what)
            else:
                yield self.span.page.path, self.span.line + self.span.text.count('\n', 0, name.start), f'`{name.text}` {fault}'
