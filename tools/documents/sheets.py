#!/usr/bin/env python3
"""Writes the sheets of docs/definitions, or compares them with the contracts and definitions that they are made of.

usage: sheets.py [--write] [REPOSITORY]

A sheet has the contracts of some public calls and all definitions that these rest on. tools/documents/sheets.txt says which calls
belong to which sheet; the rest is read from crates/*/src and crates/*/specs. Every public function of the crates has to stand in
sheets.txt, and every word of the toolchain that a sheet uses. In docs/PROOFS.md the last cell of a row that links a sheet is the
number of lines of its definitions, and each lemma of the table of published values has to stand in the file of its row.

It prints 'ok: ..', or what differs. With --write it writes the sheets and the numbers first.
"""
import os
import re
import sys
from pathlib import Path

LISTS = 'tools/documents/sheets.txt'
SHEETS = 'docs/definitions'
PAGE = 'docs/PROOFS.md'

# The words of logic, which the page explains.
LOGIC = set('''Type Unit tt Bool true false not List Option Some None Result Ok Err suc zero let in if then else record where
    data self result'''.split())

errors = []


def wrong(message):
    if message not in errors:
        errors.append(message)


# ---- definitions

HEAD = re.compile(r'(?:(?:abbrev|unfoldable|opaque|pub|data|record) +)*([A-Za-z_][\w\'-]*) *[:({]')
# `Rattle.x.y.{a, b as c}`, perhaps over several lines, or `Rattle.x.y as z`
USE = re.compile(r'\buse (Rattle\.[\w.]+?)(?:\.\{([^}]*)\}| as (\w+))')
# the names of arguments and of fields
BOUND = re.compile(r"(?:[({]|\n +(?:pub )?)([\w' ]+) :")
WORD = re.compile(r"(?<![\w.◌])([A-Za-z_][\w'-]*)(?:\.([A-Za-z_][\w'-]*))?")


class Definition:
    def __init__(self, path, name, at):
        self.path, self.name, self.at, self.comment, self.lines = path, name, at, [], []

    def signature(self):
        """The lines up to the first equation, field or case."""
        kept = []
        for line in self.lines:
            if re.match(re.escape(self.name) + r'(?! *:)', line) or re.match(r' +(pub )?[◌\w\']+ :', line):
                break
            kept.append(line)
        return [re.sub(r' +where$', '', line) for line in kept if line.strip() != 'where']


def imports(text):
    """Each word that a file takes from elsewhere: its module and its name there; of a module's name, the module alone."""
    found = {}
    for module, items, alias in USE.findall(text):
        if alias:
            found[alias] = (module, None)
        for item in items.split(','):
            name, _, other = item.strip().partition(' as ')
            if name:
                found[(other or name).strip('◌')] = (module, name.strip('◌'))
    return found


def path_of(module):
    part = module.split('.')
    return 'crates/' + '/'.join(part[1:]) + '.antt'


def origin(module):
    """What a reader looks for: a file of definitions, or a type of the code."""
    if '.declared.' not in module:
        return path_of(module)
    return f'the type {module.split(".")[1]}::{module.replace(".TheVariants", "").split(".")[-1]}'


class Definitions:
    def __init__(self):
        self.all, self.imported, self.title, self.inside = {}, {}, {}, {}
        for path in sorted(str(p) for p in Path('.').glob('crates/*/specs/**/*.antt')):
            self.read(path)

    def read(self, path):
        text = Path(path).read_text()
        self.imported[path] = imports(text)
        lines = text.split('\n')
        self.title[path] = [line for at, line in enumerate(lines) if all(before.startswith('--') for before in lines[:at + 1])]
        comment, now, pending = [], None, []
        for at, line in enumerate(lines):
            if line.startswith('-- ----') or re.match(r'(pub )?use\b', line) or not line.strip():
                comment, now, pending = [], None, []
            elif line.startswith('--'):
                if now:
                    comment, now = [], None
                comment.append(line)
            elif line.startswith('infix'):
                pending.append(line)
            else:
                head = not line.startswith(' ') and HEAD.match(line)
                if head and (path, head.group(1)) not in self.all:
                    now = Definition(path, head.group(1), at)
                    now.comment, now.lines = comment, pending
                    self.all[path, now.name] = now
                    comment, pending = [], []
                if now:
                    now.lines.append(line)
                    case = re.match(r'  (?:pub )?◌?([A-Za-z_]\w*)◌? :', line)
                    if case and any(re.match(r'(pub )?data ', head) for head in now.lines):
                        self.inside[path, case.group(1)] = now

    def find(self, word, dotted, imported, path=None):
        """The definition that a word means in a file; of a word from elsewhere, its module and name."""
        if word not in imported:
            return self.all.get((path, word)) or self.inside.get((path, word))
        module, name = imported[word]
        name = name or dotted
        source = path_of(module)
        if source not in self.imported:
            return (module, name)
        found = self.all.get((source, name)) or self.inside.get((source, name))
        if found is None and name in self.imported[source]:
            return self.find(name, '', self.imported[source], source)
        if found is None:
            wrong(f'{source} has no {name}, which a contract or a definition names')
        return found

    def used(self, lines, imported, path=None):
        """What the words of some lines mean."""
        text = re.sub(r'"[^"]*"', '', '\n'.join(lines))
        bound = set(' '.join(BOUND.findall(text)).split())
        found = []
        for word, dotted in WORD.findall(text):
            # A variable or a field may have the name of a case, as `field`.
            if word in bound and (path, word) in self.inside:
                continue
            meaning = self.find(word, dotted, imported, path)
            if meaning is not None and meaning not in found:
                found.append(meaning)
        return found


# ---- calls

FUNCTION = re.compile(r'( *)(pub(?:\([^)]*\))? )?(?:const )?(?:unsafe )?(?:extern "C" )?fn (\w+)')
BLOCK = re.compile(r'(?:pub(?:\([^)]*\))? )?(impl|trait)\b(?:<.*?>)? *(?:(\w+)(?:<[^{]*?>)? for )?&?(?:\'\w+ )?(\w+)')


class Call:
    def __init__(self, path, lines, imported, is_public, block=''):
        self.path, self.lines, self.imported, self.is_public, self.block = path, lines, imported, is_public, block

    def clauses(self):
        text = '\n'.join(re.sub(r'^ *//.*', '', line) for line in self.lines)
        found = re.search(r'\n *(requires|ensures)\b', text)
        return [text[found.start():]] if found else []


def read_calls():
    """The functions by name, as `aead::Sealer::new`, and the ghost members, as `aead::Aead` or `aead::AnyAead as Aead`."""
    calls, members = {}, {}
    for crate in [line.split(':')[0].split()[0] for line in Path('crates.txt').read_text().split('\n') if line.strip()]:
        library = Path(f'crates/{crate}/src/lib.rt')
        if not library.exists():
            continue
        exported = set(re.findall(r'\w+', ' '.join(re.findall(r'pub use [\w:]+::(\{[^}]*\}|\w+);', library.read_text()))))
        exported |= set(re.findall(r'^pub (?:trait|struct|enum) (\w+)', library.read_text(), re.M))
        for path in sorted(str(p) for p in Path(f'crates/{crate}/src').rglob('*.rt')):
            if '/tests/' not in path and not path.endswith('/uses.rt'):
                read_file(crate, path, exported, calls, members)
    return calls, members


def read_file(crate, path, exported, calls, members):
    text = Path(path).read_text()
    imported = imports(text)
    lines = text.split('\n')
    block = None
    for at, line in enumerate(lines):
        if re.match(r'(pub(\([^)]*\))? )?(unsafe )?(impl|trait)\b', line) and not BLOCK.match(line):
            wrong(f'{path}:{at + 1}: this script does not read such a line')
        if BLOCK.match(line):
            kind, of, name = BLOCK.match(line).groups()
            if of:
                block = ('impl', f'{crate}::{name} as {of}', False, '')
            else:
                generic = line.rstrip(' {') if re.match(r'impl<[^>]*\b[A-Z]', line) else ''
                block = (kind, f'{crate}::{name}', name in exported and (kind == 'impl' or line.startswith('pub ')), generic)
        elif line == '}':
            block = None
        if block and line.startswith('    ghost ') and not line.startswith('    ghost use'):
            end = at
            while not lines[end].rstrip().endswith(';'):
                end += 1
            comment = at
            while lines[comment - 1].startswith('    //'):
                comment -= 1
            members.setdefault(block[1], Call(path, [], imported, False)).lines += lines[comment:end + 1]
        found = FUNCTION.match(line)
        if not found:
            continue
        indentation, visibility, name = found.groups()
        if block and indentation:
            public = block[2] and (block[0] == 'trait' or visibility == 'pub ')
            name = f'{block[1]}::{name}'
        else:
            export = any('no_mangle' in before for before in lines[max(at - 2, 0):at])
            public = visibility == 'pub ' and (name in exported or export or path.endswith('/lib.rt'))
            name = f'{crate}::{name}'
        whole, end = [], at
        while True:
            whole.append(lines[end])
            if lines[end].strip() in ('{', '{}'):
                whole.pop()
                break
            if lines[end].endswith(';') or re.search(r' \{( .*\})?$', lines[end]) and not is_clause(lines, end):
                whole[-1] = re.sub(r' \{( .*\})?$', '', lines[end]).rstrip(';')
                break
            end += 1
        whole = [re.sub('^' + indentation, '', part) for part in whole]
        if name not in calls or public:
            calls[name] = Call(path, whole, imported, public, block[3] if block and indentation else '')


def is_clause(lines, at):
    """Whether a line belongs to a clause, whose braces are not those of the body."""
    while at > 0 and not FUNCTION.match(lines[at]):
        if re.match(r' *(requires|ensures)\b', lines[at]):
            return True
        at -= 1
    return False


# ---- the list of sheets

class Sheet:
    def __init__(self, name):
        self.name, self.title, self.notes = name, '', []
        self.after, self.calls, self.members, self.without = [], [], [], []


def read_lists():
    sheets, rest, meanings, closed, files, kind, now = [], {}, {}, set(), [], None, None
    for number, line in enumerate(Path(LISTS).read_text().split('\n'), 1):
        line = line.rstrip()
        if not line or line.startswith('#'):
            continue
        if line.startswith('== '):
            kind, _, name = line[3:].partition(' ')
            if kind == 'sheet':
                now = Sheet(name)
                sheets.append(now)
            elif kind == 'not-needed':
                now = name
            continue
        if kind == 'sheet':
            key, _, value = line.partition(': ')
            if key == 'title':
                now.title = value
            elif key == 'note':
                now.notes.append(value)
            elif key in ('after', 'calls', 'without'):
                getattr(now, key).extend(value.split())
            elif key == 'members':
                now.members.extend(part.strip() for part in value.split(','))
            else:
                wrong(f'{LISTS}:{number}: no such line')
        elif kind == 'not-needed':
            for name in line.split():
                if name in rest:
                    wrong(f'{LISTS}:{number}: {name} twice')
                rest[name] = now
        elif kind == 'relations':
            closed.update(line.split())
        elif kind == 'order':
            files += line.split()
        elif kind == 'words':
            of, word, meaning = [part.strip() for part in line.split('|')]
            meanings[word.split()[0]] = (word, of, meaning)
    return sheets, rest, closed, meanings, files


# ---- a sheet

def drop_cases(definition, without):
    """The lines of a definition without the equations whose first argument is left out."""
    kept, skip = [], False
    for line in definition.lines:
        if not line.startswith(' '):
            name, _, case = line.partition(' ')
            skip = name == definition.name and re.split(r'[ ()]+', case.lstrip(' ('), maxsplit=1)[0] in without
        if not skip:
            kept.append(line)
    return kept


class Maker:
    def __init__(self, definitions, calls, members, closed, meanings, files):
        self.definitions, self.calls, self.members = definitions, calls, members
        self.closed, self.meanings, self.used_words, self.used_closed = closed, meanings, set(), set()
        self.there, self.known, self.files = {}, {}, files

    def lines_of(self, definition, sheet):
        if definition.name in self.closed:
            self.used_closed.add(definition.name)
            return definition.signature()
        return drop_cases(definition, sheet.without)

    def uses(self, definition, sheet):
        """What the lines of a definition that stand on the sheet name."""
        key = (definition.path, definition.name, sheet.name)
        if key not in self.known:
            imported = self.definitions.imported[definition.path]
            self.known[key] = self.definitions.used(self.lines_of(definition, sheet), imported, definition.path)
        return self.known[key]

    def rank(self, definition):
        """Where a definition stands: by the order of the files, and then by its place in its file."""
        known = [at for at, path in enumerate(self.files) if definition.path.startswith(f'crates/{path}')]
        if not known:
            wrong(f'{LISTS}: the order has no place for {definition.path}')
        return known[:1], definition.path, definition.at

    def roots(self, name):
        """What the contract of a call, or a ghost member, names."""
        call = self.calls.get(name) or self.members[name]
        return self.definitions.used(call.clauses() if name in self.calls else call.lines, call.imported)

    def make(self, sheet):
        """The text of a sheet, and how many lines its definitions have."""
        before = set()
        for other in sheet.after:
            if other not in self.there:
                wrong(f'{LISTS}: {sheet.name} comes after {other}, which does not stand before it')
            before |= self.there.get(other, set())
        stack = []
        for name in sheet.members + sheet.calls:
            if name in self.calls or name in self.members:
                stack += self.roots(name)
            else:
                wrong(f'{LISTS}: {sheet.name}: no {name} in the crates')
        needed, elsewhere = set(), set()
        while stack:
            meaning = stack.pop()
            if isinstance(meaning, tuple):
                elsewhere.add(meaning)
            elif meaning not in needed and (meaning.path, meaning.name) not in before:
                needed.add(meaning)
                stack += self.uses(meaning, sheet)
        order = []

        def place(definition):
            """Puts a definition after those that it uses."""
            if definition in needed and definition not in placed:
                placed.add(definition)
                for other in self.uses(definition, sheet):
                    place(other)
                order.append(definition)

        placed = set()
        for definition in sorted(needed, key=self.rank):
            place(definition)
        self.there[sheet.name] = before | {(d.path, d.name) for d in order}
        self.twice = {}
        for path, name in sorted(self.there[sheet.name]):
            self.twice.setdefault(name, []).append(path)
        self.twice = {name: paths for name, paths in self.twice.items() if len(paths) > 1}
        return self.text(sheet, order, elsewhere)

    def other_names(self, sheet, order):
        """A line for each word that a file of the sheet takes from another under a name of its own, or that stands in several."""
        parts = [(d.path, self.lines_of(d, sheet), self.definitions.imported[d.path]) for d in order]
        parts += [(c.path, c.lines, c.imported) for c in map(self.calls.get, sheet.calls) if c]
        found = {}
        for path, lines, imported in parts:
            for word in {word for word, _ in WORD.findall('\n'.join(lines))} & set(imported):
                module, name = imported[word]
                if '.std.' not in module and (name != word or word in self.twice):
                    found.setdefault((word, f'{name} of ' * bool(name) + origin(module)), set()).add(path)
        return [f'{word} is {meaning}, in {", ".join(sorted(paths))}' for (word, meaning), paths in sorted(found.items())]

    def text(self, sheet, order, elsewhere):
        """The sheet, and how many lines its definitions have. `elsewhere` has the words that no file of specs/ defines."""
        count = sum(len(self.lines_of(d, sheet)) for d in order)
        out = [sheet.title, '', f'{len(sheet.calls)} calls, {len(order)} definitions of {count} lines.',
               'Written by tools/documents/sheets.py from crates/*/src and crates/*/specs; docs/PROOFS.md says how to read it.']
        if sheet.after:
            out.append(f'Goes on from {", ".join(sheet.after)}: what stands there is not repeated.')
        out += sheet.notes
        out += ['', '', '======== The calls and their contracts']
        for name in sheet.calls:
            call = self.calls.get(name)
            if call:
                out += ['', f'---- {name}   ({call.path})'] + [call.block] * bool(call.block)
                out += [line for line in call.lines if line.strip()]
        if sheet.members:
            out += ['', '', '======== What the contracts see of a type']
        for name in sheet.members:
            if name in self.members:
                member = self.members[name]
                out += ['', f'---- {name}   ({member.path})']
                out += [re.sub('^    ', '', line) for line in without_invariants(member.lines)]
        out += ['', '', '======== The definitions']
        last, headed = None, set()
        for definition in order:
            if definition.path != last:
                last = definition.path
                out += ['', '', f'---- {last}'] + [line for line in self.definitions.title[last] if last not in headed]
                headed.add(last)
            out += [''] + definition.comment
            if definition.name in self.closed:
                out.append('-- [given by its type alone: how a state is stored need not be read]')
            others = [path for path in self.twice.get(definition.name, []) if path != definition.path]
            if others:
                out.append(f'-- [{definition.name} of this file is not that of {" or ".join(others)}]')
            out += [plain(line) for line in self.lines_of(definition, sheet)]
        denied = re.search(rf'(?:¬|unless) \(?({"|".join(self.closed)})\b', '\n'.join(out))
        if denied:
            wrong(f'{LISTS}: the sheet {sheet.name} denies {denied.group(1)}, so it has to have its body')
        names = self.other_names(sheet, order)
        if names:
            out += ['', '', '======== Other names', ''] + names
        out += ['', '', '======== The words of the toolchain', '']
        types = set()
        for module, name in sorted(elsewhere, key=lambda word: word[1]):
            if '.declared.' in module and not module.startswith('Rattle.std.'):
                types.add(origin(module).replace('the type ', ''))
            elif name in self.meanings:
                word, _, meaning = self.meanings[name]
                out.append(f'{word}: {meaning}')
                self.used_words.add(name)
            elif name not in LOGIC and re.match(r'[A-Za-z]', name):
                wrong(f'{LISTS}: the sheet {sheet.name} uses {name} of {module}, which has no line among the words')
        if types:
            out += ['', f'Types of the code: {", ".join(sorted(types))}.']
        return '\n'.join(out) + '\n', count


def without_invariants(lines):
    kept, skip = [], False
    for line in lines:
        if re.match(r'    (ghost|//)', line):
            skip = bool(re.match(r'    ghost (invariant|inverse)\b', line))
        if not skip:
            kept.append(line)
    return kept


def plain(line):
    """Without the words that only say where a proof may look inside."""
    return line if line.startswith(' ') else re.sub(r'^((abbrev|unfoldable|opaque|pub) +)*', '', line)


# ---- comparing

def names_in(text):
    """The definitions that a sheet has."""
    body = text.split('======== The definitions')[-1].split('======== The words')[0]
    return {found.group(1) for found in map(HEAD.match, body.split('\n')) if found}


def compare(sheet, made, maker, texts):
    path = Path(SHEETS) / f'{sheet.name}.txt'
    if not path.exists():
        wrong(f'{path} is not there')
        return
    stands = path.read_text()
    # What each contract names, looked for in the text of the sheet itself.
    there = set().union(*(names_in(texts[name]) for name in [sheet.name] + sheet.after if name in texts))
    for name in sheet.members + sheet.calls:
        if name in maker.calls or name in maker.members:
            for meaning in maker.roots(name):
                if isinstance(meaning, Definition) and meaning.name not in there:
                    wrong(f'{path} lacks {meaning.name}, which {name} names')
    if stands != made:
        lacks, surplus = names_in(made) - names_in(stands), names_in(stands) - names_in(made)
        wrong(f'{path} is stale' + (f'; it lacks {", ".join(sorted(lacks))}' if lacks else '')
              + (f'; no contract rests on {", ".join(sorted(surplus))}' if surplus else ''))


def check_page(counts, write):
    """The numbers of the page, and the lemmas of its table of published values."""
    page = Path(PAGE)
    lines, table, lemmas, linked = page.read_text().split('\n'), '', 0, set()
    for at, line in enumerate(lines):
        if not line.startswith('|'):
            table = ''
        elif not table:
            table = line
        elif table == '| published value | lemma | computed |' and not line.startswith('|-'):
            path = re.findall(r'`(crates/[^`]+)`', line)
            for name in sorted(set(re.findall(r'`(\w+)`', line.split('|', 2)[2])) - {'refl'}):
                if not path or not Path(path[0]).exists() or not re.search(rf'^(\w+ )*{name} *:', Path(path[0]).read_text(), re.M):
                    wrong(f'{PAGE}:{at + 1}: no lemma {name} in {path}')
                lemmas += 1
        found = re.match(r'\|.*\]\(definitions/([\w-]+)\.txt\).*\| (\d+|\?) \|$', line)
        if found:
            linked.add(found.group(1))
            if found.group(1) not in counts:
                wrong(f'{PAGE}:{at + 1}: no sheet {found.group(1)}')
            elif int(found.group(2).replace('?', '0')) != counts[found.group(1)]:
                if write:
                    lines[at] = re.sub(r'\| (\d+|\?) \|$', f'| {counts[found.group(1)]} |', line)
                else:
                    wrong(f'{PAGE}:{at + 1}: the sheet {found.group(1)} has {counts[found.group(1)]} lines')
    for name in counts:
        if name not in linked:
            wrong(f'{PAGE}: no row links the sheet {name}')
    if write:
        page.write_text('\n'.join(lines))
    return lemmas


def main(arguments):
    write = arguments[:1] == ['--write']
    if write:
        arguments = arguments[1:]
    if len(arguments) > 1 or any(a.startswith('-') for a in arguments):
        print(__doc__.strip(), file=sys.stderr)
        return 2
    os.chdir(arguments[0] if arguments else Path(__file__).resolve().parents[2])
    definitions = Definitions()
    calls, members = read_calls()
    sheets, rest, closed, meanings, files = read_lists()
    listed = {name for sheet in sheets for name in sheet.calls}
    for name, call in calls.items():
        if call.is_public and name not in listed and name not in rest:
            wrong(f'{call.path}: {name} belongs to no sheet: add it in {LISTS}')
    for name in list(listed) + list(rest):
        if name not in calls:
            wrong(f'{LISTS}: no function {name} in the crates')
        elif name in listed and name in rest:
            wrong(f'{LISTS}: {name} is in a sheet, and not needed')
    maker = Maker(definitions, calls, members, closed, meanings, files)
    made, counts = {}, {}
    for sheet in sheets:
        made[sheet.name], counts[sheet.name] = maker.make(sheet)
    for word in meanings:
        if word not in maker.used_words:
            wrong(f'{LISTS}: no sheet uses the word {word}')
    for name in sorted(closed - maker.used_closed):
        wrong(f'{LISTS}: no sheet has the relation {name}')
    folder = Path(SHEETS)
    if write:
        folder.mkdir(exist_ok=True)
        for name, text in made.items():
            (folder / f'{name}.txt').write_text(text)
    texts = {path.stem: path.read_text() for path in folder.glob('*.txt')}
    for sheet in sheets:
        compare(sheet, made[sheet.name], maker, texts)
    for name in texts:
        if name not in made:
            wrong(f'{folder}/{name}.txt is no sheet of {LISTS}')
    lemmas = check_page(counts, write)
    if errors:
        print('\n'.join(errors), file=sys.stderr)
        return 1
    print(f'ok: {len(sheets)} sheets have the contracts of {len(listed)} calls and what these rest on, {len(rest)} calls need none, '
          f'and {lemmas} lemmas are there')
    return 0


if __name__ == '__main__':
    sys.exit(main(sys.argv[1:]))
