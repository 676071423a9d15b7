"""What there is to be named: crates, definitions, code, cases, headers, scripts and what programs print."""
import re
from collections import defaultdict
from functools import lru_cache
from pathlib import Path

HOME = Path(__file__).resolve().parent.parent.parent

README = 'README.md'

# Where the cases stand.
PACKET_CASES = 'crates/packet_vectors/src/tables.rt'
RECORD_CASES = 'crates/pedr_vectors/src/cases.rt'
HISTORIES = 'crates/reorder_vectors/src/*.rt'
FILES = 'aedr_cases'
COMPARISON = 'tests/compare.rs'

# Groups of crates.txt whose crates are programs, or what only these use; the others are libraries.
PROGRAM_GROUPS = ('programs', 'tests')

# Programs that a user has to have, and the words that rt takes first.
TOOLS = ('rt', 'rustc', 'gcc', 'python3', 'valgrind')
RT_WORDS = ('all', 'check', 'ci', 'doc', 'expand', 'fmt', 'help', 'lemma', 'lib', 'must-fail', 'new', 'plant', 'run', 'selftest', 'test', 'tidy', 'try',
            'verdict', 'version')

# The script that builds what stands under target/ for a user.
BUILD = 'tools/build'

# Words of Rattle and of the language of definitions and proofs, which no file declares.
KEYWORDS = set('''abbrev arith auto bool cc else ensures fn ghost grind i16 i32 i64 impl let match module mut new now old omega pub record repr requires result return
    returns rules search simp struct tactic trait Type u16 u32 u64 u8 unfoldable unfolding use using usize'''.split())

# Words in a path that stand for any name.
ANY = re.compile(r'\b(?:CRATE|FILE|FUNCTION|NAME)\b')

WORD = re.compile(r'\b[^\W\d]\w*(?:-\w+)*')
NUMBER = r'\d+(?:,\d{3})*'


def read(path):
    return (HOME / path).read_text(encoding='utf-8')


@lru_cache(None)
def found(pattern):
    """The paths from the root that the pattern gives, but for what is built and what belongs to git."""
    paths = sorted(path.relative_to(HOME) for path in HOME.glob(pattern))
    return [str(path) for path in paths if path.parts and path.parts[0] not in ('target', '.git')]


def uncommented(code):
    return re.sub(r'//[^\n]*|/\*.*?\*/', '', code, flags=re.S)


def imports(text):
    """The names that a file takes from the proof library, which has no file here."""
    own = '|'.join(crates()[0])
    uses = re.findall(rf'(?m)^(?:ghost )?use (?!Rattle\.(?:{own})\.)\S+?\.\{{([^}}]*)\}}', text)
    return {name.strip() for names in uses for name in names.split(',')}


def parts(names):
    """The words of operators, as `refuse` and `unless` of `refuse◌unless◌else◌`."""
    return {part for name in names if '◌' in name for part in name.split('◌')}


class Definitions:
    """The names that a file of definitions or of proofs declares, the fields of its records, and the variables of its equations."""

    def __init__(self, text):
        self.names, self.fields, self.variables, self.imported = set(), defaultdict(set), set(), imports(text)
        record, depth = None, 0
        for line in re.sub(r'(?m)(^|\s)--.*$', '', text).split('\n'):
            indent = len(line) - len(line.lstrip())
            if line.strip() and indent <= depth:
                record = None
            head = re.match(r' *(?:pub )?(?:record|data) ([^\s{]+)', line)
            sign = re.match(r' *(?:(?:abbrev|unfoldable|pub) )*([^\s(){}]+) :(?:\s|$)', line)
            if head:
                record, depth = head[1], indent
                self.names.add(record)
            elif sign and record:
                self.names.add(sign[1])
                self.fields[record].add(sign[1])
            elif sign and indent <= 2:  # a deeper one is local to a proof
                self.names.add(sign[1])
            left, equals, _ = line.partition(' =')
            self.variables.update(WORD.findall(left) if equals else ())


class Source:
    """The names that the code of a crate declares; of each function, whether it is public."""

    def __init__(self, text):
        self.code, self.imported = uncommented(text), imports(text)
        functions = sorted(re.findall(r'(pub )?(?:extern "C" )?fn (\w+)(?:<(?:[^<>]|<[^<>]*>)*>)?\(([^)]*)\)', self.code))
        self.functions = {name: bool(public) for public, name, _ in functions}
        self.exports = set(re.findall(r'\bpub extern "C" fn (\w+)', self.code))
        self.items = set(re.findall(r'\b(?:struct|enum|const|trait) (\w+)', self.code))
        self.public = set(re.findall(r'\bpub (?:struct|enum|const|trait) (\w+)', self.code))
        self.cases = {name: set(re.findall(r'(?m)^\s*(\w+)', body)) for name, body in re.findall(r'enum (\w+) \{([^}]*)\}', self.code)}
        lists = [parameters for _, _, parameters in functions] + re.findall(r'struct \w+ \{([^}]*)\}', self.code)
        fields = {name for names in lists for name in re.findall(r'(\w+):', names)}
        self.names = fields.union(self.functions, self.items, *self.cases.values())


class Cases:
    """The cases that are run."""

    def __init__(self):
        tables = re.findall(r'const (\w+): \[\w+; \w+\] = \[(.*?)\];', uncommented(read(PACKET_CASES)), re.S)
        self.tables = {name: [self.row(row.strip()) for row in body.split(',') if row.strip()] for name, body in tables}
        records = re.search(r'const \w+: \[u64; \w+\] = \[(.*?)\n\];', read(RECORD_CASES), re.S)[1]
        self.headings = re.findall(r'(?m)^ *// (.*)', records)
        self.kinds = {
            'history': {number for path in found(HISTORIES) for number in re.findall(r'\bHISTORY \+ (\d+)', uncommented(read(path)))},
            'compare': {name for names in re.findall(r'(?m)^ *\("(\w+)", |only == "(\w+)"', read(COMPARISON)) for name in names if name},
            FILES: {Path(path).name for path in found(f'crates/{FILES}/data/*')},
        }

    @staticmethod
    def row(text):
        """The parts that a row names, and its numbers, each with the part before it."""
        return set(re.findall(r'[A-Z]\w*', text)), set(re.findall(r'([A-Z]\w*) \+ (\d+)', text)) | {('', text)}

    def has_row(self, table, parts, number=None):
        """Whether the table has a row of these parts, and with the number after the last of them."""
        last = (parts[-1] if parts else '', number)
        return any(row.issuperset(parts) and (number is None or last in numbers) for row, numbers in self.tables[table])

    def has_heading(self, text):
        return any(re.match(re.escape(text) + r'[.,:]', heading) for heading in self.headings)


def in_full(text):
    """The numbers that a text lists, with those between where "to" stands."""
    numbers = []
    for to, number in re.findall(rf'( to )?({NUMBER})', text):
        last = int(number.replace(',', ''))
        numbers += range(numbers[-1] + 1 if to else last, last + 1)
    return list(map(str, numbers))


@lru_cache(None)
def crates():
    """The group of each crate of crates.txt, and the libraries of the kit that they use."""
    groups, used, group = {}, {'std'}, ''
    for line in read('crates.txt').split('\n'):
        heading = re.match(r'# -- ([^:]+)', line)
        entry = re.match(r'(\w+)(?: staticlib)?:(.*)', line)
        group = heading[1] if heading else group
        if entry:
            groups[entry[1]] = group
            used.update(entry[2].split())
    return groups, used - set(groups)


class Tree:
    """What there is, by its kind."""

    def __init__(self):
        self.groups, self.kit = crates()
        self.specs = {(Path(path).parts[1], Path(path).stem): Definitions(read(path)) for path in found('crates/*/specs/*.antt')
                      if Path(path).stem != 'Lib'}  # which only lists the others
        self.edits = {(Path(path).parts[1], Path(path).stem) for path in found('crates/*/must-fail/*.edit')}
        self.sources = {name: Source('\n'.join(map(read, found(f'crates/{name}/src/*.rt')))) for name in self.groups}
        self.cases = Cases()
        self.headers = {Path(path).stem: set(re.findall(r'\w+', uncommented(read(path)))) for path in found('include/*.h')}
        self.output = {Path(path).parts[1]: read(path) for path in found('crates/*/stdout')}
        files = [path for folder in ('.ci', 'docs', 'tests', 'bench', 'examples', 'tools') for path in found(folder + '/*') if (HOME / path).is_file()]
        self.scripts = {path: read(path) for path in files if (HOME / path).read_bytes()[:2] == b'#!'}
        # among them those of the C library and of libraries that are measured beside this one
        self.called_in_c = set(re.findall(r'\b(\w+)\(', '\n'.join(map(read, found('bench/*.c')))))
        self.gather()

    def gather(self):
        """The names of all crates together."""
        specs, sources = self.specs.values(), self.sources.values()
        self.code = '\n'.join(source.code for source in sources)
        self.defined = set().union(*(file.names for file in specs))
        self.fields = defaultdict(set)
        for record, fields in (entry for file in specs for entry in file.fields.items()):
            self.fields[record] |= fields
        self.declared = set().union(*(source.names for source in sources))
        self.enums = {name: cases for source in sources for name, cases in source.cases.items()}
        self.imported = set().union(*(file.imported for file in (*specs, *sources)))
        # methods and types of the language's library that the code uses
        self.used = {name for names in re.findall(r'\.(\w+)\(|\b([A-Z]\w+)\b', self.code) for name in names if name}
        variables = set().union(*(file.variables for file in specs), *self.headers.values())
        self.words = self.defined | self.declared | self.imported | self.used | parts(self.defined) | variables | KEYWORDS | set(self.groups)

    @lru_cache(None)
    def definitions(self, crate):
        return set().union(*(file.names for (owner, _), file in self.specs.items() if owner == crate))

    @lru_cache(None)
    def laws(self, crate):
        return set().union(*(Definitions(read(path)).names for path in found(f'crates/{crate}/proofs/**/*.antt')))

    def is_library(self, crate):
        return self.groups[crate] not in PROGRAM_GROUPS

    def is_built(self, path):
        """What BUILD makes under target/, of a program or of a library that exports functions, and what a command of the README makes there."""
        if path in re.findall(r'(?m)^    \$ .*(?:>|-o) (target/[\w./-]+)$', read(README)):
            return True
        copied = re.findall(r'(?m)^cp crates/(\w+)/out/(\S+) (target/\S+)$', self.scripts[BUILD])
        made = {to for crate, file, to in copied if file == crate and (HOME / f'crates/{crate}/src/main.rt').is_file()
                or file == f'lib{crate}.a' and self.exports(crate)}
        return path.rstrip('/') in made | {str(folder) for to in made for folder in list(Path(to).parents)[:-1]}

    def exports(self, crate):
        """The functions that a crate exports to C."""
        return self.sources[crate].exports if crate in self.sources else set()

    def is_path(self, text):
        """A path from the root or in some crate; CRATE, FILE and NAME stand for any name."""
        if text.startswith('target/'):
            return self.is_built(text)
        pattern = ANY.sub('*', text)
        if not re.fullmatch(r'[\w.*-][\w./*-]*', pattern) or '..' in pattern:
            return False
        paths = found(pattern.rstrip('/')) + found('crates/*/' + pattern.rstrip('/'))
        return any((HOME / path).is_dir() or not text.endswith('/') for path in paths)

    def item(self, text):
        """`crate::item`, `Enum::Case`, or an item of the language or of the kit's libraries that a source uses."""
        first, *_, last = text.split('::')
        if first in self.sources:
            source = self.sources[first]
            return last in source.functions and ('function', first, last) or last in source.items and ('item', first, last)
        if first in self.enums:
            return last in self.enums[first] and ('item', first, last)
        return bool(re.search(rf'\b{re.escape(text)}\b', self.code)) and ('item', text)

    def is_command(self, words):
        """A tool that the scripts use, a script, or a program that is built, and what each is given."""
        program, *given = words
        given = [word for word in given if not re.fullmatch(r'[<>|]|[A-Z]+\.*|-.*', word)]
        if program == 'rt':
            return words == ['rt'] or words[1] in RT_WORDS and all(word in self.groups for word in given[1:])
        if program in TOOLS:
            return any(re.search(rf'\b{program}\b', text) for text in self.scripts.values()) and all('/' not in word or self.is_path(word) for word in given)
        return all(re.search(rf'\b{re.escape(word)}\b', self.scripts.get(program, '')) for word in given)

    @lru_cache(None)
    def is_printed(self, text):
        """A line that a program prints, a part of one in words, or what a script prints with a number N."""
        if not re.search(r'[a-z]', text):
            return any(text in printed.split('\n') for printed in self.output.values())
        words = text.removeprefix('N ')
        texts = self.output.values() if words == text else self.scripts.values()
        return any(words in printed and re.search(rf'\b{re.escape(words)}\b', printed) for printed in texts)
