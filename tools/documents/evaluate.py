#!/usr/bin/env python3
"""Computes vectors with the definitions as they are printed on the sheets of docs/definitions.

usage: evaluate.py [FILE ..]
       evaluate.py --changed

It reads the sheets of ChaCha20-Poly1305, AES-GCM, AES-GCM-SIV and key wrap, and no other file of the repository, makes a Python
function of each definition, and asks of each record of the vector files (without FILE: docs/*.vectors) what the sheets say: that a
text is `Opened`, `Unwrapped` or `UnwrappedPadded`, or that the sealed bytes of an `invalid` record are not those of any text; and
that the list of the call's checks (`WholeOpenRefused`, `UnwrapRefused`, `PaddedUnwrapRefused`) names one fault or none.
It fails if a record disagrees, and if a definition cannot be read: each one on the four sheets has to be. Of a file that would take
over three minutes it computes a part by a fixed rule: see `chosen`.

With --changed it changes one constant, one index or one order of bytes on a sheet, and fails unless a published vector disagrees.

What it knows of the language
- A definition is a type and then equations, tried from top to bottom. A pattern is a name, a number, `zero`, `suc n`, `true`, `false`,
  `[]`, `x ∷ xs`, or a case with patterns behind it. A `record` whose fields are types is a record of values; one whose fields are
  statements is the statement that all of them hold. A case is one that the equations of the sheet tell apart, or one of a `data`.
- A name means the definition of the same file of specs/, else the only one of the sheet. If there are more, it is not read, unless
  a line of 'Other names' says which is meant.
- Numbers are Python's integers, `-` stops at 0, lists are tuples, and functions take their arguments one by one. Nothing is lazy but
  `if`, `&&` and `||`. The words of the toolchain are the functions of WORDS below, written from their lines on the sheets.
- A statement is true or false: `≡ ≢ ≤ <`, `×` and, `⊎` or, `→` implies, `¬` not, `⊤`, `⊥`.
- A quantifier over numbers, as (i : ℕ) → .., goes through the indices of every list in scope and one more: each of the sheets asks
  about an item of a list, which is 0 past the end.
- A quantifier over lists goes through the one list that can be the text of the record. Of a sealing it is the bytes before the tag,
  masked under this tag; of a wrapping it is what the steps give backwards. Any other text gives other bytes: masking twice changes
  nothing, and each step is undone by one register only. The cipher is undone by its own printed steps (the S-box by a table of its
  256 values, ShiftRows and MixColumns by three more of them, since four change nothing), and each block so found is enciphered
  again by the printed cipher.
"""
import functools
import os
import re
import sys
import threading
from collections import namedtuple
from pathlib import Path

SHEETS = ('chacha20-poly1305', 'aes-gcm', 'aes-gcm-siv', 'key-wrap')
CHANGES = (
    ('a constant', 'chacha20-poly1305', '0x79622d32', '0x79622d33'),
    ('an index', 'aes-gcm', 'at s r ((c + r) % 4)', 'at s r ((c + r + 1) % 4)'),
    ('an order of bytes', 'aes-gcm-siv', 'to_le_bytes w64 (8 * length text)', 'to_be_bytes w64 (8 * length text)'),
    ('a constant', 'key-wrap', '0xa6 ∷ 0x59 ∷ 0x59 ∷ 0xa6', '0xa6 ∷ 0x59 ∷ 0x95 ∷ 0xa6'),
    ('an index', 'chacha20-poly1305', 'quarter_round 2 7 8 13', 'quarter_round 2 7 8 12'),
    ('an order of bytes', 'key-wrap', 'bytes_high_first 8 t', 'reverse (bytes_high_first 8 t)'),
)


class Unreadable(Exception):
    pass


# ---- values and the words of the toolchain

Case = namedtuple('Case', 'name arguments')
Structure = functools.lru_cache(None)(lambda fields: namedtuple('Structure', fields))


def structure(**fields):
    return Structure(tuple(sorted(fields)))(**fields)


def get_or(items, place, default):
    return items[place] if place < len(items) else default


def position(test, items):
    return next((Case('Some', (at,)) for at, item in enumerate(items) if test(item)), Case('None', ()))


def le_bytes(width, number):
    return tuple(number >> 8 * at & 255 for at in range(width))


def rotate_left(width, number, places):
    return (number << places | number >> 8 * width - places) & (1 << 8 * width) - 1


# The name and the number of arguments of each word, and what it means.
WORDS = {
    'bit_and': (2, lambda a, b: a & b), 'bit_or': (2, lambda a, b: a | b), 'bit_xor': (2, lambda a, b: a ^ b),
    'bytes_high_first': (2, lambda k, n: le_bytes(k, n)[::-1]), 'bytes_low_first': (3, lambda i, k, n: le_bytes(i + k, n)[i:]),
    'codes': (1, lambda text: tuple(text.encode('ascii'))), 'count_by': (2, lambda p, xs: sum(map(p, xs))),
    'drop': (2, lambda n, xs: xs[n:]), 'take': (2, lambda n, xs: xs[:n]), 'get_or': (3, get_or), 'length': (1, len),
    'flat_map': (2, lambda f, xs: tuple(y for x in xs for y in f(x))), 'map': (2, lambda f, xs: tuple(map(f, xs))),
    'max': (2, max), 'nat_lt': (2, lambda a, b: a < b),
    'number_from_digits': (2, lambda b, ds: functools.reduce(lambda n, d: n * b + d, ds, 0)), 'position': (2, position),
    'range_with_len': (2, lambda a, n: tuple(range(a, a + n))), 'replicate': (2, lambda n, x: (x,) * n), 'reverse': (1, lambda xs: xs[::-1]),
    'rotate_left': (3, rotate_left), 'slice_index': (2, lambda xs, i: get_or(xs, i, 0)),
    'slice_set': (3, lambda xs, i, x: xs[:i] + (x,) + xs[i + 1:] if i < len(xs) else xs),
    'to_le_bytes': (2, le_bytes), 'to_be_bytes': (2, lambda w, n: le_bytes(w, n)[::-1]),
    'unwrap_or': (2, lambda o, d: o.arguments[0] if o.name == 'Some' else d), 'not': (1, lambda b: not b),
    'w32': (0, 4), 'w64': (0, 8), 'w128': (0, 16), 'true': (0, True), 'false': (0, False),
    'MatchResult': (3, lambda r, f, g: (f if r.name == 'Ok' else g)(r.arguments[0])),
    'IsOk': (1, lambda r: r.name == 'Ok'), 'OnErr': (2, lambda r, p: p if r.name == 'Err' else True),
}
WORD_TYPES = {'ℕ', 'Bool', 'List', 'Option', 'Result', 'Unit', 'Type'}

# The lists that a quantifier over lists goes through.
TRIED = []


def curried(function, count):
    if count <= 1:
        return function
    return lambda x: curried(functools.partial(function, x), count - 1)


def places(*scope):
    """The indices of every list in scope, and one more."""
    return range(2 + max((len(item) for item in scope if type(item) is tuple), default=0))


def minus(a, b):
    return a - b if a > b else 0


def no_case(name, *arguments):
    raise Unreadable(f'no equation of {name} has these arguments')


RUNTIME = {'minus': minus, 'places': places, 'curried': curried, 'structure': structure, 'Case': Case, 'TRIED': TRIED, 'no_case': no_case}

# ---- reading

TOKEN = re.compile(r'''\s+|(?P<number>0x[0-9a-f]+|\d+)|(?P<text>"[^"]*")|(?P<name>ℕ|[A-Za-z_][\w']*(?:\.\w+)*)|'''
                   r'(?P<sign>\+\+|==|&&|\|\||[-+*/%^().:=;{}λ∷→≡≢≤<×⊎¬⊤⊥]|\[\])')
# The operators, loosest first, and whether they group to the right; None if to neither side. A sheet declares those of one level.
LEVELS = [(('→',), True), (('⊎',), True), (('×',), True), (('≡', '≢', '≤', '<'), None), (('||',), True), (('&&',), True), (('==',), None),
          (('∷', '++'), True), ((), None), (('+', '-'), False), (('*', '/', '%'), False), (('^',), True)]
DECLARED = 8
SIGNS = {'≡': '==', '≢': '!=', '≤': '<=', '<': '<', '==': '==', '×': 'and', '&&': 'and', '⊎': 'or', '||': 'or', '++': '+', '+': '+',
         '*': '*', '/': '//', '%': '%', '^': '**'}


class Reader:
    """The tokens of one definition, and its expressions as trees."""

    def __init__(self, text, infixes):
        self.tokens, self.at, self.infixes = [], 0, infixes
        place = 0
        while place < len(text):
            found = TOKEN.match(text, place)
            if not found:
                raise Unreadable(f'cannot read {text[place:place + 20]!r}')
            place = found.end()
            if found.lastgroup:
                self.tokens.append((found.lastgroup, found.group()))
        self.tokens.append(('end', ''))

    def peek(self, ahead=0):
        return self.tokens[min(self.at + ahead, len(self.tokens) - 1)]

    def next(self, wanted=None):
        kind, text = self.peek()
        if wanted and text != wanted:
            raise Unreadable(f'expected {wanted!r} and found {text!r}')
        self.at += 1
        return kind, text

    def names(self, end):
        found = []
        while self.peek()[1] != end:
            kind, text = self.next()
            if kind != 'name':
                raise Unreadable(f'{text!r} is not a name')
            found.append(text)
        self.next()
        return found

    def expression(self):
        kind, text = self.peek()
        if text == 'λ':
            self.next()
            return ('function', self.names('.'), self.expression())
        if text == 'let':
            self.next()
            name = self.next()[1]
            if self.peek()[1] == ':':
                while self.peek()[1] != '=':
                    self.next()
            self.next('=')
            value = self.expression()
            self.next('in')
            return ('let', name, value, self.expression())
        if text == 'if':
            self.next()
            test = self.expression()
            self.next('then')
            first = self.expression()
            self.next('else')
            return ('if', test, first, self.expression())
        return self.level(0)

    def at_binder(self):
        """Whether (x y : T) stands here."""
        ahead = 1
        while self.peek()[1] == '(' and self.peek(ahead)[0] == 'name':
            ahead += 1
        return ahead > 1 and self.peek(ahead)[1] == ':'

    def level(self, depth):
        """An expression of the operators from this level on."""
        if depth == len(LEVELS):
            return self.application()
        if depth == 0 and self.at_binder():
            self.next('(')
            names, of = self.names(':'), self.application()
            self.next(')')
            sign = self.next()[1]
            if sign not in ('→', '×'):
                raise Unreadable(f'{sign!r} behind a quantifier')
            return ('every' if sign == '→' else 'some', names, of, self.expression())
        signs, right = LEVELS[depth]
        left = self.level(depth + 1)
        while self.peek()[1] in (self.infixes if depth == DECLARED else signs):
            sign = self.next()[1]
            if self.peek()[1] in ('λ', 'let', 'if') or self.at_binder():
                value = self.expression()
            else:
                value = self.level(depth if right else depth + 1)
            left = ('sign', sign, left, value)
            if right is not False:
                break
        return left

    def application(self):
        if self.peek()[1] == '¬':
            self.next()
            return ('not', self.application())
        function, arguments = self.atom(), []
        while True:
            kind, text = self.peek()
            if kind in ('number', 'text') or text in ('(', '[]', '⊤', '⊥') or kind == 'name' and text not in ('then', 'else', 'in') \
                    and text not in self.infixes:
                arguments.append(self.atom())
            elif text == '{' and function == ('name', 'Unit'):
                self.at += 3
            elif text == 'λ':
                arguments.append(self.expression())
            else:
                return ('call', function, arguments) if arguments else function

    def atom(self):
        kind, text = self.next()
        if kind == 'number':
            return ('value', int(text, 0))
        if kind == 'text':
            return ('value', text[1:-1])
        if text in ('⊤', '⊥'):
            return ('value', text == '⊤')
        if text == '[]':
            return ('value', ())
        if text == 'record':
            self.next('{')
            fields = []
            while self.peek()[1] != '}':
                name = self.next()[1]
                self.next('=')
                fields.append((name, self.expression()))
                if self.peek()[1] == ';':
                    self.next()
            self.next()
            return ('record', fields)
        if kind == 'name':
            return ('name', text)
        if text == '(':
            inner = self.expression()
            self.next(')')
            return inner
        raise Unreadable(f'cannot read {text!r}')

    def pattern(self, whole=False):
        """A pattern: `whole` within brackets, where arguments and signs may follow."""
        kind, text = self.next()
        if kind == 'number' or text in ('zero', 'true', 'false'):
            found = ('value', {'zero': 0, 'true': True, 'false': False}[text] if kind == 'name' else int(text, 0))
        elif text == '[]':
            found = ('value', ())
        elif text == '(':
            found = self.pattern(whole=True)
            self.next(')')
        elif kind != 'name':
            raise Unreadable(f'cannot read the pattern {text!r}')
        elif text == 'suc' and whole:
            return ('suc', self.pattern())
        else:
            arguments = []
            while whole and self.peek()[1] not in (')', '∷', *self.infixes):
                arguments.append(self.pattern())
            found = ('case', text, arguments) if text[0].isupper() or arguments else ('name', text)
        if whole and self.peek()[1] == '∷':
            self.next()
            return ('cons', found, self.pattern(whole=True))
        if whole and self.peek()[1] in self.infixes:
            return ('case', self.next()[1], [found, self.pattern()])
        return found


# ---- a sheet

class Definition:
    """One definition of a sheet: a name, the Python name, how many arguments it takes before its equations, and its text."""

    def __init__(self, path, name, python):
        self.path, self.name, self.python, self.count = path, name, python, 0
        self.kind, self.type, self.equations, self.parameters, self.fields = 'equations', '', [], [], []


class Sheet:
    def __init__(self, name, text):
        self.name, self.infixes, self.cases, self.all, self.of = name, [], {'Ok', 'Err', 'Some', 'None'}, {}, {}
        self.used, self.caches, self.scope = set(), [], dict(RUNTIME)
        parts = re.split(r'^======== (.*)\n', text, flags=re.M)
        parts = dict(zip(parts[1::2], parts[2::2]))
        for word in re.findall(r'^(\w+)[^:\n]*: ', re.sub(r'^Types of .*', '', parts['The words of the toolchain'], flags=re.M), re.M):
            if word not in WORDS:
                raise Unreadable(f'{name}: the word {word} of the toolchain is not known here')
        self.others = re.findall(r'^(\S+) is (\S+) of (crates/\S+\.antt), in (.*)$', parts.get('Other names', ''), re.M)
        for part in re.split(r'^---- ', parts['The definitions'], flags=re.M)[1:]:
            self.read(part.split('\n', 1)[0], part.split('\n', 1)[1])
        for definition in self.all.values():
            for equation in definition.equations:
                self.patterns(definition, equation)
        for definition in self.all.values():
            try:
                self.compile(definition)
            except (Unreadable, SyntaxError) as error:
                raise Unreadable(f'{name}: {definition.name} of {definition.path}: {error}') from None

    def read(self, path, text):
        """The definitions of one file, as parts that begin at the margin."""
        blocks = []
        for line in text.split('\n'):
            if line.startswith(' ') and blocks:
                blocks[-1] += '\n' + line
            elif line.strip() and not line.startswith('--'):
                blocks.append(line)
        for block in blocks:
            head = re.match(r"(?:(record|data) )?([A-Za-z_][\w']*)", block)
            if block.startswith('infix '):
                self.infixes += re.findall(r'◌(\w+)◌', block)
            elif not head:
                raise Unreadable(f'{self.name}: {block.split(chr(10))[0]!r} of {path} is not a definition')
            elif head[1] == 'data':
                self.cases |= set(re.findall(r'^ +◌?(\w+)◌? :', block, re.M))
            elif head[1] == 'record':
                self.record(self.add(path, head[2]), block)
            elif (path, head[2]) in self.all:
                self.all[path, head[2]].equations.append(block[head.end():])
            elif re.match(r' :\s', block[head.end():]):
                self.add(path, head[2]).type = block[head.end() + 3:]
            else:
                raise Unreadable(f'{self.name}: {head[2]} of {path} has no type')

    def add(self, path, name):
        if (path, name) in self.all:
            raise Unreadable(f'{self.name}: {name} stands twice under {path}')
        self.all[path, name] = Definition(path, name, f'd{len(self.all)}_{name}')
        self.of.setdefault(name, []).append(self.all[path, name])
        return self.all[path, name]

    def record(self, definition, block):
        head, _, rest = block.partition('\n')
        definition.parameters = ' '.join(re.findall(r"\(([\w' ]+) :", head)).split()
        definition.count = len(definition.parameters)
        definition.fields = [field.split(' : ', 1) for field in re.split(r'^  pub ', rest, flags=re.M)[1:]]
        types = [field[1].split()[0] in WORD_TYPES or field[1].split()[0][0].isupper() and not definition.parameters for field in definition.fields]
        definition.kind = 'values' if all(types) else 'facts'
        if not definition.fields or any(types) != all(types) or not head.endswith(': Type 0 where'):
            raise Unreadable(f'{self.name}: the record {definition.name} is neither one of values nor one of statements')

    def patterns(self, definition, block):
        """Reads the left side of an equation; the cases that stand there are cases that the sheet knows."""
        reader = Reader(block, self.infixes)
        found = []
        while reader.peek()[1] != '=':
            found.append(reader.pattern())
        reader.next()
        definition.equations[definition.equations.index(block)] = (found, reader)
        definition.count = len(found)
        self.cases |= {name for pattern in found for name in cases_in(pattern)}

    def find(self, name, path):
        """The definition that a name means in a file."""
        if (path, name) in self.all:
            return self.all[path, name]
        for word, meant, source, files in self.others:
            if word == name and path in files.split(', '):
                return self.all[source, meant]
        found = self.of.get(name, [])
        if len(found) > 1:
            raise Unreadable(f'{name} stands on the sheet more than once')
        return found[0] if found else None

    def compile(self, definition):
        if definition.kind == 'values':
            return
        lines = []
        if definition.kind == 'facts':
            arguments = [f'v_{name}' for name in definition.parameters]
            facts = []
            for name, text in definition.fields:
                facts.append(self.whole(Reader(text, self.infixes), definition.path, definition.parameters))
            lines.append(f'    return {" and ".join(facts)}')
        else:
            if not definition.equations:
                raise Unreadable('it has no equation')
            arguments = [f'a{at}' for at in range(definition.count)]
            for patterns, reader in definition.equations:
                if len(patterns) != definition.count:
                    raise Unreadable('its equations take different numbers of arguments')
                tests, names = [], []
                for argument, pattern in zip(arguments, patterns):
                    matched(pattern, argument, tests, names)
                lines.append(f'    if {" and ".join(tests) or "True"}:')
                lines += [f'        v_{plain(name)} = {value}' for name, value in names]
                lines.append(f'        return {self.whole(reader, definition.path, [name for name, _ in names])}')
            lines.append(f'    no_case({definition.name!r}, {", ".join(arguments)})')
        source = f'def {definition.python}({", ".join(arguments)}):\n' + '\n'.join(lines) + '\n'
        exec(compile(source, f'{self.name}: {definition.name}', 'exec'), self.scope)
        function = self.scope[definition.python]

        @functools.wraps(function)
        def counted(*values):
            self.used.add(definition.name)
            self.scope[definition.python] = function
            return function(*values)

        if definition.count == 0:
            function = functools.lru_cache(None)(function)
        elif definition.kind == 'equations' and re.search(r'\bd\d+_', source.split('\n', 1)[1]) and 'TRIED' not in source \
                and not re.search(r'\([^()]*→', definition.type):
            # A definition that rests on others and takes no function is computed once for the same arguments.
            numbers = not re.search(r"[A-Z]", definition.type.replace('ℕ', ''))
            function = functools.lru_cache(None if numbers else 1 << 14)(function)
            self.caches.append(function)
        self.scope[definition.python] = counted

    def whole(self, reader, path, scope):
        source = self.python(reader.expression(), path, tuple(scope))
        if reader.peek()[0] != 'end':
            raise Unreadable(f'cannot read {reader.peek()[1]!r}')
        return source

    def python(self, tree, path, scope):
        """A tree as the source of a Python expression."""
        kind = tree[0]
        if kind == 'value':
            return repr(tree[1])
        if kind == 'function':
            body = self.python(tree[2], path, scope + tuple(tree[1]))
            return '(' + ''.join(f'lambda v_{plain(name)}: ' for name in tree[1]) + body + ')'
        if kind == 'let':
            return f'(lambda v_{plain(tree[1])}: {self.python(tree[3], path, scope + (tree[1],))})({self.python(tree[2], path, scope)})'
        if kind == 'if':
            test, first, second = (self.python(part, path, scope) for part in tree[1:])
            return f'({first} if {test} else {second})'
        if kind == 'not':
            return f'(not {self.python(tree[1], path, scope)})'
        if kind == 'record':
            return f'structure({", ".join(f"{name}={self.python(value, path, scope)}" for name, value in tree[1])})'
        if kind in ('every', 'some'):
            names, of, body = tree[1:]
            if of == ('name', 'ℕ'):
                over = f'places({", ".join(f"v_{plain(name)}" for name in scope)})'
            elif of == ('call', ('name', 'List'), [('name', 'ℕ')]):
                over = 'TRIED'
            else:
                raise Unreadable('a quantifier that is neither over numbers nor over lists of numbers')
            body = self.python(body, path, scope + tuple(names))
            return f'{"all" if kind == "every" else "any"}({body} {" ".join(f"for v_{plain(name)} in {over}" for name in names)})'
        if kind == 'sign':
            sign, left, right = tree[1], self.python(tree[2], path, scope), self.python(tree[3], path, scope)
            if sign == '-':
                return f'minus({left}, {right})'
            if sign == '∷':
                return f'(({left},) + {right})'
            if sign == '→':
                return f'(not {left} or {right})'
            if sign in self.infixes:
                return f'Case({sign!r}, ({left}, {right}))'
            return f'({left} {SIGNS[sign]} {right})'
        if kind == 'name':
            return self.call(tree[1], [], path, scope)
        arguments = [self.python(part, path, scope) for part in tree[2]]
        if tree[1][0] == 'name':
            return self.call(tree[1][1], arguments, path, scope)
        return self.python(tree[1], path, scope) + ''.join(f'({argument})' for argument in arguments)

    def call(self, name, arguments, path, scope):
        """A name, applied to arguments one by one: all that it takes at once where they are there."""
        first, *fields = name.split('.')
        count = 0
        if first in scope:
            source = ''.join([f'v_{plain(first)}'] + [f'.{field}' for field in fields])
        elif fields:
            raise Unreadable(f'{name} is not a field of a variable')
        elif self.find(first, path):
            found = self.find(first, path)
            if found.kind == 'values':
                raise Unreadable(f'the type {name} stands in the place of a value')
            source, count = found.python, found.count
            source += '()' * (count == 0)
        elif first in self.cases:
            return f'Case({first!r}, ({"".join(argument + ", " for argument in arguments)}))'
        elif first == 'suc' and len(arguments) == 1:
            return f'({arguments[0]} + 1)'
        elif first == 'Unit' and not arguments:
            return 'True'
        elif first in WORDS:
            count, value = WORDS[first]
            source = f'w_{first}'
            self.scope[source] = value
        else:
            raise Unreadable(f'{name} is not defined on the sheet')
        if count > len(arguments):
            source = f'curried({source}, {count})'
        elif count:
            source, arguments = f'{source}({", ".join(arguments[:count])})', arguments[count:]
        return source + ''.join(f'({argument})' for argument in arguments)

    def __getattr__(self, name):
        """The definition of a name that stands once on the sheet, as a Python function."""
        if len(self.of.get(name, [])) != 1:
            raise Unreadable(f'{self.name}: there is not one definition of {name}')
        definition = self.of[name][0]

        def applied(*arguments):
            result = self.scope[definition.python](*arguments[:definition.count])
            for argument in arguments[definition.count:]:
                result = result(argument)
            return result

        return applied

    def forget(self):
        for function in self.caches:
            if function.cache_info().maxsize:
                function.cache_clear()


def plain(name):
    return name.replace("'", '_q')


def cases_in(pattern):
    """The names of the cases in a pattern."""
    if pattern[0] == 'case':
        yield pattern[1]
    for part in pattern[2] if pattern[0] == 'case' else pattern[1:] if pattern[0] in ('suc', 'cons') else []:
        yield from cases_in(part)


def matched(pattern, source, tests, names):
    """The tests of a pattern, and the names that it gives."""
    kind = pattern[0]
    if kind == 'name':
        names += [(pattern[1], source)] * (pattern[1] != '_')
    elif kind == 'value':
        tests.append(f'{source} == {pattern[1]!r}')
    elif kind == 'suc':
        tests.append(f'{source} > 0')
        matched(pattern[1], f'({source} - 1)', tests, names)
    elif kind == 'cons':
        tests.append(f'{source} != ()')
        matched(pattern[1], f'{source}[0]', tests, names)
        matched(pattern[2], f'{source}[1:]', tests, names)
    else:
        tests.append(f'{source}.name == {pattern[1]!r} and len({source}.arguments) == {len(pattern[2])}')
        for at, part in enumerate(pattern[2]):
            matched(part, f'{source}.arguments[{at}]', tests, names)


# ---- vectors

def read_vectors(path):
    """The records of a vector file, each with its number and the number of its first line."""
    records = []
    for at, line in enumerate(Path(path).read_text().split('\n'), 1):
        name, equals, value = (part.strip() for part in line.partition('='))
        if line.startswith('#') or not line.strip() or name == 'format':
            continue
        if name == 'suite':
            records.append({'suite': value, 'line': at, 'number': len(records) + 1, 'text': None, 'aad': (), 'nonce': ()})
        elif name in ('key', 'nonce', 'aad', 'sealed', 'text') and equals:
            records[-1][name] = tuple(bytes.fromhex(value))
        elif name != 'cuts' and line.strip() != 'invalid':
            raise Unreadable(f'{path}:{at} is not a line of a vector file')
    return records


def cost(record):
    """About how long a record takes, in thousandths of a second. The powers of H in GHASH are not reduced, so n blocks take n^3."""
    blocks = len(record['sealed']) // 16 + len(record['aad']) // 16 + 2
    if 'wrap' in record['suite']:
        return 50 * (len(record['sealed']) // 8)
    if 'chacha' in record['suite']:
        return 5 + blocks
    return 100 + 6 * blocks ** 3 if record['suite'].endswith('gcm') else 80 + 70 * blocks


def chosen(records, budget):
    """The records that are computed: each if the budget allows, else, of those of each suite in the order of their costs, those
    with the numbers 1, k + 1, 2k + 1 and so on, for the least k, and none that takes over 5 seconds."""
    order, of_suite = sorted(records, key=lambda record: (cost(record), record['number'])), {}
    for record in order:
        if sum(map(cost, records)) <= budget or cost(record) <= 5000:
            of_suite.setdefault(record['suite'], []).append(record)
    for every in range(1, len(records) + 1):
        taken = [record for group in of_suite.values() for record in group[::every]]
        if sum(map(cost, taken)) <= budget:
            break
    return sorted(taken, key=lambda record: record['number'])


def undo_cipher(sheet, key, block):
    """The block whose cipher is this one."""
    box = {sheet.sbox(x): x for x in range(256)}
    if len(box) != 256:
        raise Unreadable('the S-box takes a value twice')
    words, rounds = sheet.schedule(key), sheet.round_count(key)
    state = block
    for at in range(rounds, -1, -1):
        state = sheet.add_round_key(words, at, state)
        if at:
            for _ in range(3 if at < rounds else 0):
                state = sheet.mix_columns(state)
            for _ in range(3):
                state = sheet.shift_rows(state)
            state = tuple(box[x] for x in state)
    if sheet.cipher(key, state) != block:
        raise Unreadable('the cipher cannot be undone')
    return state


def unwrapped(sheet, key, wrapped, padded):
    """The text whose wrapping these bytes can be: the register before the steps, without A."""
    if padded and len(wrapped) == 16:
        register = undo_cipher(sheet, key, wrapped)
    else:
        register = wrapped
        for t in range(6 * (len(wrapped) // 8 - 1), 0, -1):
            first = sheet.xor_bytes(register[:8], WORDS['bytes_high_first'][1](8, t))
            register = undo_cipher(sheet, key, first + register[-8:]) + register[8:-8]
    if not padded:
        return register[8:]
    return register[8:8 + int.from_bytes(bytes(register[4:8]), 'big')]


def agrees(sheet, record):
    """Whether the sheet says of a record what the record says; else why not."""
    suite, key, sealed, text = (record[name] for name in ('suite', 'key', 'sealed', 'text'))
    if 'wrap' in suite:
        padded = suite.endswith('-pad')
        refused = sheet.PaddedUnwrapRefused if padded else sheet.UnwrapRefused
        holds, valid = (sheet.UnwrappedPadded, sheet.IsPaddedWrapping) if padded else (sheet.Unwrapped, sheet.IsWrapping)
        if not sheet.IsKey(key) or not suite.startswith(f'aes-{8 * len(key)}-wrap'):
            return 'the key is not one of the suite'
        TRIED[:] = [unwrapped(sheet, key, sealed, padded)] if len(sealed) % 8 == 0 and len(sealed) >= 16 else []
        of = key
    else:
        case = case_of(suite, sheet)
        if sheet.key_length(case) != len(key) or len(record['nonce']) != 12:
            return 'the key or the nonce has another length'
        of = sheet.setting(structure(suite=case, key=key), record['nonce'], record['aad'])
        holds, valid, refused = sheet.Opened, sheet.IsSealing, sheet.WholeOpenRefused
        body, tag = sealed[:-16], sealed[-16:]
        TRIED[:] = [sheet.masked(sheet.mask_of(of, tag), 0, body)] if len(sealed) >= 16 else []
    if text is not None and not holds(of, sealed, text):
        return 'the sealed bytes are not those of the text'
    if text is not None and TRIED != [text]:
        return 'the sealed bytes open to another text'
    if valid(of, sealed) != (text is not None):
        return 'the sealed bytes are valid, or not valid, against the record'
    faults = [patterns[0][1] for patterns, _ in sheet.of['fault_number'][0].equations]
    named = [fault for fault in faults if fault != 'OutOfMemory' and refused(of, sealed, Case(fault, ()))]
    if len(named) != (text is None):
        return f'the call returns {named or "no fault"}'
    return None


def case_of(suite, sheet):
    """The suite of a sheet that has this name, if there is one."""
    cases = [Case(patterns[0][1], ()) for found in sheet.of.get('suite_name', []) for patterns, _ in found.equations]
    return next((case for case in cases if sheet.suite_name(case) == tuple(suite.encode())), None)


def sheet_of(suite, sheets):
    """The sheet of a suite: the one that has its name, or that of key wrap."""
    return next((sheet for sheet in sheets if case_of(suite, sheet) or 'wrap' in suite and 'wrapping' in sheet.of), None)


def first_disagreement(sheet, records):
    """The first record of a sheet's suites that disagrees, and why."""
    for record in sorted(records, key=cost):
        if sheet_of(record['suite'], [sheet]):
            try:
                why = agrees(sheet, record)
            except Unreadable as error:
                why = str(error)
            if why:
                return record, why
    return None, ''


def read_sheet(name, change=None):
    text = Path(f'docs/definitions/{name}.txt').read_text()
    if change:
        definitions = text.split('======== The definitions')[1]
        if definitions.count(change[0]) != 1:
            raise Unreadable(f'{name}: {change[0]!r} does not stand once')
        text = text.replace(change[0], change[1])
    return Sheet(name, text)


def changed():
    records = read_vectors('docs/published.vectors')
    for what, name, old, new in CHANGES:
        record, why = first_disagreement(read_sheet(name, (old, new)), records)
        if record is None:
            print(f'no published vector disagrees with {name} after {what} was changed: {old} to {new}', file=sys.stderr)
            return 1
        print(f'{name}, {what} changed, {old} to {new}: published vector {record["number"]} ({record["suite"]}): {why}', flush=True)
    print(f'ok: each of {len(CHANGES)} changed sheets disagrees with a published vector')
    return 0


def main(arguments):
    if arguments == ['--changed']:
        return changed()
    if any(argument.startswith('-') for argument in arguments):
        print(__doc__.split('\n\n')[1], file=sys.stderr)
        return 2
    sheets, wrong = [read_sheet(name) for name in SHEETS], 0
    for path in arguments or sorted(map(str, Path('docs').glob('*.vectors'))):
        records = read_vectors(path)
        taken = chosen(records, 180000)
        for record in taken:
            sheet = sheet_of(record['suite'], sheets)
            why = agrees(sheet, record) if sheet else 'no sheet has this suite'
            if why:
                wrong += 1
                print(f'{path}:{record["line"]}: record {record["number"]} ({record["suite"]}): {why}', file=sys.stderr, flush=True)
            if sheet:
                sheet.forget()
        valid = sum(record['text'] is not None for record in taken)
        print(f'{path}: {len(taken)} of {len(records)} records are computed, {valid} valid and {len(taken) - valid} invalid', flush=True)
        wrong += not taken
    read = sum(len(sheet.all) for sheet in sheets)
    used = sum(len(sheet.used) for sheet in sheets)
    if wrong:
        return 1
    print(f'ok: {read} definitions on {len(sheets)} sheets are read, {used} of them computed with, and the records agree')
    return 0


if __name__ == '__main__':
    words = [os.path.abspath(word) if not word.startswith('-') else word for word in sys.argv[1:]]
    os.chdir(Path(__file__).resolve().parents[2])
    # A definition on a list calls itself once for each item.
    sys.setrecursionlimit(1000000)
    threading.stack_size(512 << 20)
    status = []

    def run():
        try:
            status.append(main(words))
        except Unreadable as error:
            print(f'not read: {error}', file=sys.stderr)

    thread = threading.Thread(target=run)
    thread.start()
    thread.join()
    sys.exit(status[0] if status else 1)
