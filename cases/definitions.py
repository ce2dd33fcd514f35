#!/usr/bin/env python3
"""Plays the stored call scripts by the definitions themselves and compares the answers with the stored ones.

    python3 cases/definitions.py [--root FOLDER] [SCRIPT..]

FOLDER is the repository's, by default the folder above this file's; without a SCRIPT every script of FOLDER/cases is played.
The definitions are the files crates/*/specs/**/*.antt. What runs is translated from their text: each function that a call needs,
from `step`, `format`, `format_leaves`, `mount` and the record reader on, becomes one Python function, clause by clause. By hand are
only the functions of the proof library (LIBRARY) and the lines of a script that are no calls (Player).
From an accepted mount on, as long as nothing but calls changes the areas, the register is fed with each call and its answer (`feed`),
and held against what the areas then store: server, view, what waits, and what each program has lost.

Numbers, `true` and `false` are Python's; lists are tuples; a value of a data type is a tuple of its constructor's name and the
arguments; a record is a named tuple. A function that is passed as a value takes one argument at a time.
Ends with 1 if an answer differs, and with 2 if a definition cannot be translated.
"""
import argparse
import collections
import functools
import pathlib
import re
import sys
import threading
import time


class Unclear(Exception):
    """Something that this program cannot translate or play."""


# ---------------------------------------------------------------------------------------------------------------- words
# a word, the line and column where it begins, and whether it is the first of its line
Word = collections.namedtuple('Word', 'text line column first')

# a comment, a bracket or the like, `.field`, a name that may have dots within, the dot behind the variables of a λ
WORD = re.compile(r'--.*|[(){};,]|\.[^\s(){};,.]+|[^\s(){};,.]+(?:\.[^\s(){};,.]+)*|\.')


def words_of(text):
    """The words of a file, without its comments."""
    words = []
    for number, line in enumerate(text.split('\n'), 1):
        found = [w for w in WORD.finditer(line) if not w.group().startswith('--')]
        words += [Word(w.group(), number, w.start(), w is found[0]) for w in found]
    return words


def cut_at(words, column):
    """The words, cut before each line that begins at the column."""
    starts = [i for i, w in enumerate(words) if w.first and w.column == column]
    return [words[a:b] for a, b in zip(starts, starts[1:] + [len(words)])]


def places_of(words, texts):
    """The places where some words stand outside all brackets."""
    depth = 0
    for i, word in enumerate(words):
        if depth == 0 and word.text in texts:
            yield i
        depth += (word.text in ('(', '{')) - (word.text in (')', '}'))


def place_of(words, texts):
    """The first of these places; the number of words if there is none."""
    return next(places_of(words, texts), len(words))


# ---------------------------------------------------------------------------------------------------------- expressions
# how strongly each operator binds, and whether it groups to the right, as the library's files say
OPERATORS = {'||': (30, 0), '&&': (35, 0), '+': (65, 0), '-': (65, 0), '++': (65, 0), '∷': (67, 1), '*': (70, 0), '/': (70, 0),
             '%': (70, 0), '^': (75, 1)}
# words that begin no expression; of some this program does not know the meaning
CLOSING = {'', ')', '}', ';', ',', '=', ':', '.', 'in', 'where', '→', '×', '≡', '<', '≤', 'elim', 'do', 'if', 'then', 'else'}


class Reader:
    """Reads an expression from words: ('number', n), ('name', x), ('call', e, [e, ..]), ('field', e, f), ('lambda', [x, ..], e),
    ('let', x, e, e), ('record', {f: e, ..}) or ('tuple', [e, ..]). A pattern is read as an expression."""

    def __init__(self, words):
        self.words, self.at = words + [Word('', words[-1].line if words else 0, 0, False)], 0

    def peek(self):
        return self.words[self.at].text

    def next(self, wanted=None):
        word = self.words[self.at]
        if word.text != (word.text or 'more' if wanted is None else wanted):
            raise Unclear(f'line {word.line}: {wanted or "more"} wanted in place of {word.text or "the end"}')
        self.at += 1
        return word.text

    def whole(self):
        e = self.expression()
        self.next('')
        return e

    def expression(self, least=0):
        left = self.application()
        while OPERATORS.get(self.peek(), (-1, 0))[0] >= least:
            operator = self.next()
            strength, right = OPERATORS[operator]
            left = ('call', ('name', f'◌{operator}◌'), [left, self.expression(strength + 1 - right)])
        return left

    def application(self):
        """A function with its arguments."""
        e, arguments = self.projection(), []
        while self.peek() not in CLOSING and self.peek() not in OPERATORS:
            arguments.append(self.projection())
        return ('call', e, arguments) if arguments else e

    def projection(self):
        """An atom with the fields that are written close behind it."""
        e = self.atom()
        while self.peek().startswith('.') and self.peek() != '.':
            before, word = self.words[self.at - 1:self.at + 1]
            if (word.line, word.column) != (before.line, before.column + len(before.text)):
                raise Unclear(f'line {word.line}: {word.text} stands apart')
            for field in self.next()[1:].split('.'):
                e = ('field', e, field)
        return e

    def atom(self):
        text = self.next('an expression' if self.peek() in CLOSING or self.peek() in OPERATORS else None)
        if text == 'λ':
            return self.abstraction()
        if text == 'let':
            name = self.next()
            self.at += place_of(self.words[self.at:], {'='})
            self.next('=')
            value = self.expression()
            self.next('in')
            return ('let', name, value, self.expression())
        if text == '(':
            parts = [self.expression()]
            while self.peek() == ',':
                self.next()
                parts.append(self.expression())
            self.next(')')
            return ('tuple', parts) if len(parts) > 1 else parts[0]
        if text == 'record':
            return self.record()
        return ('number', int(text)) if text.isdecimal() else ('name', text)

    def abstraction(self):
        names = []
        while self.peek() != '.':
            if self.peek() == '(':
                self.next()
                names += [w.text for w in self.words[self.at:self.at + place_of(self.words[self.at:], {':'})]]
                self.at += place_of(self.words[self.at:], {')'})
                self.next(')')
            else:
                names.append(self.next())
        self.next('.')
        return ('lambda', names, self.expression())

    def record(self):
        self.next('{')
        fields = {}
        while self.peek() != '}':
            name = self.next()
            self.next('=')
            fields[name] = self.expression()
            if self.peek() == ';':
                self.next()
        self.next('}')
        return ('record', fields)


# -------------------------------------------------------------------------------------------------------------- modules
# what a name can mean: a constructor, a function of the library; or a Definition
Constructor = collections.namedtuple('Constructor', 'name arity')
Library = collections.namedtuple('Library', 'name')

STANDARD = {'None': Constructor('None', 0), 'Some': Constructor('Some', 1), 'Ok': Constructor('Ok', 1), 'Err': Constructor('Err', 1)}


class Definition:
    """A function or constant: its clauses, each the words left and right of `=`."""

    def __init__(self, module, name):
        self.module, self.name, self.clauses = module, name, []
        self.python = re.sub(r'\W', '_', f'{module.title}_{name}')

    @functools.cached_property
    def arity(self):
        left = Reader(self.clauses[0][0]).whole()
        return len(left[2]) if left[0] == 'call' else 0


def definitions_in(module, items):
    """The functions and constants among the items of a file or of a `where`; what begins otherwise than a clause is passed over."""
    found = {}
    for item in items:
        end = place_of(item, {':', '='})
        if end < len(item) and item[end].text == '=':
            name = item[0].text
            found.setdefault(name, Definition(module, name)).clauses.append((item[:end], item[end + 1:]))
    return found


class Module:
    """What a file declares and uses. Each name is looked up in its own file, for files have one name for different things."""

    def __init__(self, repository, title, text):
        self.repository, self.title = repository, title
        self.used, self.modules, self.types, self.constructors = {}, {}, {}, {}
        items = cut_at(words_of(text), 0)
        for item in items:
            item = [w for w in item if w.text != 'pub']
            if item and item[0].text == 'use':
                self.use(item[1].text, [w.text for w in item[2:] if w.text not in ('.', '{', '}', ',')])
            elif item and item[0].text == 'data':
                self.data(item[1].text, item[place_of(item, {'where'}) + 1:])
        self.definitions = definitions_in(self, items)

    def use(self, path, names):
        if not names:
            self.modules[path.split('.')[-1]] = path
        for i, name in enumerate(names):
            if name != 'as' and names[i - 1:i] != ['as']:
                self.used[names[i + 2] if names[i + 1:i + 2] == ['as'] else name] = (path, name)

    def data(self, name, words):
        mine = self.types[name] = {}
        for line in cut_at(words, words[0].column if words else 0):
            colon = place_of(line, {':'})
            arity = len(list(places_of(line[colon:], {'→'})))
            for word in line[:colon]:
                mine[word.text] = Constructor(word.text, arity)
        self.constructors.update(mine)

    def type(self, name):
        """The constructors of a data type that the file declares or uses; none of any other name."""
        path, there = self.used.get(name, ('', ''))
        module = self.repository.module(path)
        return self.types.get(name) or (module.type(there) if module else {})

    def find(self, name):
        """What a name means in this file."""
        if name in self.definitions or name in self.constructors:
            return self.definitions.get(name) or self.constructors[name]
        if name in self.used:
            return self.repository.find(*self.used[name])
        if name == 'tt':
            return Library(name)
        first, _, rest = name.partition('.')
        if rest in self.type(first):
            return self.type(first)[rest]
        return self.repository.find(self.modules[first], rest) if rest and first in self.modules else None


class Repository:
    """The files of the repository: `Rattle.CRATE.specs.A.B` is crates/CRATE/specs/A/B.antt."""

    PATH = re.compile(r'Rattle\.([^.]+)\.specs\.(.+)')

    def __init__(self, root):
        self.root, self.files = root, {None: None}

    def parted(self, path):
        """The crate of a path and the rest; nothing if the crate is not the repository's."""
        found = self.PATH.fullmatch(path)
        return found if found and (self.root / 'crates' / found[1]).is_dir() else None

    def module(self, path):
        found = self.parted(path)
        file = found and self.root / 'crates' / found[1] / 'specs' / (found[2].replace('.', '/') + '.antt')
        if file not in self.files:
            self.files[file] = Module(self, f'{found[1]}_{found[2]}', file.read_text(encoding='utf-8')) if file.is_file() else None
        return self.files[file]

    def find(self, path, name):
        """What a name means that a file uses from a path: all that is not the repository's is the library's."""
        found = self.parted(path)
        if not found:
            return STANDARD.get(name) or Library(name)
        inner = found[2].split('.')
        if inner[0] == 'declared':
            return self.variants(found[1], inner[1:-1]).get(name) if inner[-1] == 'TheVariants' else None
        if not self.module(path):
            raise Unclear(f'no file for {path}')
        return self.module(path).find(name)

    def variants(self, crate, inner):
        """The variants of an enum that the code of a crate declares, sought first in the file that the path names."""
        source = self.root / 'crates' / crate / 'src'
        first = source / ('/'.join(inner[:-1] or ['lib']) + '.rt')
        for file in [first] * first.is_file() + sorted(source.rglob('*.rt')):
            text = re.sub(r'//.*', '', file.read_text(encoding='utf-8'))
            found = re.search(rf'\benum\s+{inner[-1]}\s*{{(.*?)\n}}', text, re.S)
            if found:
                rows = re.findall(r'(\w+)\s*(?:\(([^()]*)\))?\s*(?:,|$)', re.sub(r'\s*=\s*\d+', '', found[1].strip()))
                return {name: Constructor(name, len(re.findall(r'[^,\s][^,]*', types))) for name, types in rows}
        raise Unclear(f'no enum {inner[-1]} in crate {crate}')

    def defining(self, name, crate):
        """The only file that defines a name; if more do, the only one of a crate."""
        files = [file for file in self.root.glob('crates/*/specs/**/*.antt') if 'Laws' not in file.parts
                 and re.search(rf'^{name}\b[^:\n]*=', file.read_text(encoding='utf-8'), re.M)]
        parts = [file.relative_to(self.root / 'crates').with_suffix('').parts for file in files]
        chosen = [f'Rattle.{".".join(p)}' for p in parts if len(parts) == 1 or p[0] == crate]
        if len(chosen) != 1:
            raise Unclear(f'{name} is defined in {len(files)} files')
        return self.module(chosen[0])


# -------------------------------------------------------------------------------------------------------------- library
class Huge:
    """A power or a list too large to make, or what is made of one. Arguments are computed before a call, also those that it then has
    no use for; so one may come to be, but none may be compared, measured or told."""

    def again(self, *others):
        return self

    def refuse(self, *others):
        raise Unclear('a huge number or list is asked for')

    __add__ = __radd__ = __sub__ = __rsub__ = __mul__ = __rmul__ = __floordiv__ = __rfloordiv__ = __mod__ = __rmod__ = again
    __eq__ = __lt__ = __le__ = __gt__ = __ge__ = __bool__ = __index__ = __len__ = __getitem__ = __iter__ = __str__ = refuse


# subtraction is 0 where the second number is greater; a / b ^ c needs no power that is far above a
HELPERS = {
    'power': lambda a, b: a ** b if a < 2 or b < 4096 else Huge(),
    'copies': lambda n, a: (a,) * n if n < 2 ** 20 else Huge(),
    'minus': lambda a, b: a - b if a > b else 0,
    'over_power': lambda a, b, c: 0 if b > 1 and c > a.bit_length() else a // b ** c,
    'element': lambda s, i, default: s[i] if i < len(s) else default,
    'with_element': lambda s, i, value: s[:i] + (value,) + s[i + 1:] if i < len(s) else s,
}

# the library's functions that the definitions use: the number of arguments, and the Python expression
LIBRARY = {
    'zero': (0, '0'), 'suc': (1, '({0} + 1)'), '◌+◌': (2, '({0} + {1})'), '◌-◌': (2, 'minus({0}, {1})'), '◌*◌': (2, '({0} * {1})'),
    '◌/◌': (2, '({0} // {1})'), '◌%◌': (2, '({0} % {1})'), '◌^◌': (2, 'power({0}, {1})'), 'over power': (3, 'over_power({0}, {1}, {2})'),
    'min': (2, 'min({0}, {1})'), 'max': (2, 'max({0}, {1})'), 'ltb': (2, '({0} < {1})'), 'leb': (2, '({0} <= {1})'),
    'eqb': (2, '({0} == {1})'), 'true': (0, 'True'), 'false': (0, 'False'), 'tt': (0, '()'), 'not': (1, '(not {0})'),
    '◌&&◌': (2, '({0} and {1})'),
    '◌||◌': (2, '({0} or {1})'), 'cond': (3, '({1} if {0} else {2})'), '[]': (0, '()'), '◌∷◌': (2, '(({0},) + {1})'),
    '◌++◌': (2, '({0} + {1})'), 'length': (1, 'len({0})'), 'take': (2, '{1}[:{0}]'), 'drop': (2, '{1}[{0}:]'),
    'get_or': (3, 'element({0}, {1}, {2})'), 'set': (3, 'with_element({0}, {1}, {2})'), 'replicate': (2, 'copies({0}, {1})'),
    'map': (2, 'tuple(map({0}, {1}))'),
}

# the clauses of a test whether two lists are the same, with numbers for variables; a definition of just this text runs as Python's
# own test, any other by its clauses
EQUALITY = ['self [] [] = true', 'self [] ( 0 ∷ 1 ) = false', 'self ( 0 ∷ 1 ) [] = false',
            'self ( 0 ∷ 1 ) ( 2 ∷ 3 ) = eqb 0 2 && self 1 3']

# functions whose results are kept, since the same bytes come again and again
KEPT = {'decode_volume', 'decode_log', 'decode_record', 'record_at', 'read_slot', 'encode_volume', 'encode_entry', 'encode_slot'}


# ---------------------------------------------------------------------------------------------------------- translation
def field_name(name):
    return 'f_' + re.sub(r'\W', '_', name)


def taken(field):
    """What takes a field of a record, or a part of a tuple."""
    return f'[{field}]' if field.isdecimal() else f'.{field_name(field)}'


class Translator:
    """Turns definitions into Python functions, all in one space of names."""

    def __init__(self, repository):
        self.repository, self.waiting, self.count, self.translated, self.records = repository, [], 0, 0, {}
        self.space = {**HELPERS, 'Unclear': Unclear}

    def load(self, definition):
        """The Python function of a definition, with all that it calls."""
        python = self.later(definition)
        while self.waiting:
            definition = self.waiting.pop()
            try:
                if self.is_equality(definition):
                    function = lambda s, t: s == t
                else:
                    exec('\n'.join(self.function(definition, {}, '')), self.space)
                    function = self.space[definition.python]
            except Unclear as reason:
                raise Unclear(f'{definition.module.title}, {definition.name}: {reason}') from None
            kept = definition.arity == 0 or definition.name in KEPT
            self.space[definition.python] = functools.lru_cache(128)(function) if kept else function
            self.translated += 1
        return self.space[python]

    def later(self, definition):
        """The Python name of a definition, which is translated unless it is already."""
        if definition.python not in self.space:
            self.space[definition.python] = None
            self.waiting.append(definition)
        return definition.python

    def fresh(self, name):
        self.count += 1
        return re.sub(r'\W', '_', name) + f'_{self.count}'

    def record(self, fields):
        """The name of the class of records with some fields."""
        key = tuple(sorted(fields))
        if key not in self.records:
            self.records[key] = self.fresh('Record')
            self.space[self.records[key]] = collections.namedtuple(self.records[key], [field_name(f) for f in key])
        return self.records[key]

    def is_equality(self, definition):
        clauses = []
        for left, right in definition.clauses:
            variables, texts = {}, []
            for word in [w.text for w in left] + ['='] + [w.text for w in right]:
                known = definition.module.find(f'◌{word}◌' if word in OPERATORS else word)
                if known is definition:
                    word = 'self'
                elif word not in ('(', ')', '=') and not isinstance(known, Library):
                    word = str(variables.setdefault(word, len(variables)))
                texts.append(word)
            clauses.append(' '.join(texts))
        return clauses == EQUALITY

    def function(self, definition, outer, indent):
        """The lines of a Python function that tries the clauses in order; those of a `where` stand within it."""
        module, inner, tests = definition.module, indent + '    ', []
        parameters = [self.fresh('a') for _ in range(definition.arity)]
        lines = [f'{indent}def {definition.python}({", ".join(parameters)}):']
        for left, right in definition.clauses:
            left = Reader(left).whole()
            patterns = left[2] if left[0] == 'call' else []
            if len(patterns) != len(parameters):
                raise Unclear('clauses of different lengths')
            tests, names, scope, deep = [], {}, dict(outer), inner
            for pattern, parameter in zip(patterns, parameters):
                self.match(module, pattern, parameter, tests, names)
            if tests:
                lines.append(f'{inner}if {" and ".join(tests)}:')
                deep += '    '
            used = {w.text.split('.')[0] for w in right}
            for name, text in names.items():
                scope[name] = text if text.isidentifier() else self.fresh(name)
                if scope[name] != text and name in used:
                    lines.append(f'{deep}{scope[name]} = {text}')
            end = place_of(right, {'where'})
            below = definitions_in(module, cut_at(right[end + 1:], right[end + 1].column) if end < len(right) else [])
            scope.update(below)
            for local in below.values():
                local.python = self.fresh(local.name)
                self.space[local.python] = None
            for local in below.values():
                lines += self.function(local, scope, deep)
            lines += self.statement(module, Reader(right[:end]).whole(), scope, deep)
        return lines + [f"{inner}raise Unclear('no clause of {definition.python}')"] * bool(tests)

    def match(self, module, pattern, text, tests, names):
        """What a pattern asks of a value, and what it names."""
        head, arguments = (pattern[1], pattern[2]) if pattern[0] == 'call' else (pattern, [])
        target = module.find(head[1]) if head[0] == 'name' else None
        library = target.name if isinstance(target, Library) else ''
        if pattern[0] == 'number':
            tests.append(f'{text} == {pattern[1]}')
        elif pattern[0] == 'tuple':
            for i, part in enumerate(pattern[1]):
                self.match(module, part, f'{text}[{i}]', tests, names)
        elif isinstance(target, Constructor) and target.arity == len(arguments):
            tests.append(f'{text}[0] == {target.name!r}')
            for i, argument in enumerate(arguments, 1):
                self.match(module, argument, f'{text}[{i}]', tests, names)
        elif library in ('true', 'false', 'zero', '[]'):
            tests.append({'true': text, 'zero': f'{text} == 0'}.get(library, f'not {text}'))
        elif library == 'suc':
            tests.append(f'{text} >= 1')
            self.match(module, arguments[0], f'({text} - 1)', tests, names)
        elif library == '◌∷◌':
            firsts, rest = self.spine(pattern)
            tests.append(f'len({text}) >= {len(firsts)}')
            for i, first in enumerate(firsts):
                self.match(module, first, f'{text}[{i}]', tests, names)
            self.match(module, rest, f'{text}[{len(firsts)}:]', tests, names)
        elif pattern[0] != 'name' or isinstance(target, Constructor):
            raise Unclear(f'no pattern: {head[1]}')
        elif head[1] != '_':
            names[head[1]] = text

    def spine(self, e):
        """The elements of a ∷ b ∷ .. ∷ l, and l."""
        firsts = []
        while e[0] == 'call' and e[1] == ('name', '◌∷◌'):
            firsts.append(e[2][0])
            e = e[2][1]
        return firsts, e

    def is_library(self, module, e, name, scope):
        return e[0] == 'name' and e[1] not in scope and module.find(e[1]) == Library(name)

    def statement(self, module, e, scope, indent):
        """Lines that return the value of an expression."""
        if e[0] == 'let':
            name = self.fresh(e[1])
            line = f'{indent}{name} = {self.text(module, e[2], scope)}'
            return [line] + self.statement(module, e[3], {**scope, e[1]: name}, indent)
        if e[0] == 'call' and self.is_library(module, e[1], 'cond', scope) and len(e[2]) == 3:
            line = f'{indent}if {self.text(module, e[2][0], scope)}:'
            return [line] + self.statement(module, e[2][1], scope, indent + '    ') + self.statement(module, e[2][2], scope, indent)
        return [f'{indent}return {self.text(module, e, scope)}']

    def text(self, module, e, scope):
        """A Python expression."""
        if e[0] == 'number':
            return str(e[1])
        if e[0] == 'tuple':
            return f'({", ".join(self.text(module, part, scope) for part in e[1])})'
        if e[0] == 'field':
            return self.text(module, e[1], scope) + taken(e[2])
        if e[0] == 'record':
            return f'{self.record(e[1])}({", ".join(self.text(module, e[1][f], scope) for f in sorted(e[1]))})'
        if e[0] == 'let':
            return f'{self.text(module, ("lambda", [e[1]], e[3]), scope)}({self.text(module, e[2], scope)})'
        if e[0] == 'lambda':
            names = {x: self.fresh(x) for x in e[1]}
            return '(' + ''.join(f'lambda {names[x]}: ' for x in e[1]) + self.text(module, e[2], {**scope, **names}) + ')'
        head, arguments = (e[1], e[2]) if e[0] == 'call' else (e, [])
        if head[0] == 'name':
            return self.application(module, head[1], arguments, scope)
        return self.text(module, head, scope) + ''.join(f'({self.text(module, a, scope)})' for a in arguments)

    def application(self, module, name, arguments, scope):
        """A name with its arguments: as many as it takes, or fewer, or more."""
        first, *fields = name.split('.')
        target = scope.get(first) if isinstance(scope.get(first), str) else scope.get(name) or module.find(name)
        if target == Library('◌∷◌') and len(arguments) == 2:
            firsts, rest = self.spine(('call', ('name', name), arguments))
            text = '(' + ''.join(f'{self.text(module, a, scope)}, ' for a in firsts) + ')'
            return text if self.is_library(module, rest, '[]', scope) else f'({text} + {self.text(module, rest, scope)})'
        if target == Library('◌/◌') and arguments[1:] and arguments[1][:2] == ('call', ('name', '◌^◌')):
            target, arguments = Library('over power'), [arguments[0], *arguments[1][2]]
        texts = [self.text(module, a, scope) for a in arguments]
        if isinstance(target, str):
            arity, form = 0, target + ''.join(taken(f) for f in fields)
        elif isinstance(target, Library) and target.name in LIBRARY:
            arity, form = LIBRARY[target.name]
        elif isinstance(target, Constructor):
            arity, form = target.arity, f'({target.name!r}, ' + '{}, ' * target.arity + ')'
        elif isinstance(target, Definition):
            arity, form = target.arity, self.later(target) + '(' + '{}, ' * target.arity + ')'
        else:
            raise Unclear(f'{name} is not known')
        if len(texts) >= arity:
            return form.format(*texts) + ''.join(f'({t})' for t in texts[arity:])
        bound, missing = [self.fresh('b') for _ in texts], [self.fresh('c') for _ in range(arity - len(texts))]
        function = '(' + ''.join(f'lambda {c}: ' for c in missing) + form.format(*bound, *missing) + ')'
        return f'(lambda {", ".join(bound)}: {function})({", ".join(texts)})' if texts else function


# -------------------------------------------------------------------------------------------------------------- scripts


class BadLine(Exception):
    """A line that ends a script."""


def must(held):
    if not held:
        raise BadLine


def fnv_1a(data):
    """FNV-1a in 64 bits; a run of zero bytes at once, for each only multiplies."""
    state, prime = 0xcbf29ce484222325, 0x100000001b3
    for run in re.findall(rb'\0+|[^\0]+', data):
        if run[0] == 0:
            state = state * pow(prime, len(run), 2 ** 64) % 2 ** 64
        else:
            for byte in run:
                state = (state ^ byte) * prime % 2 ** 64
    return state


class Fed:
    """The register since an accepted mount, fed with each call's arguments and answers."""

    def __init__(self, run, geometry, server):
        self.run, self.geometry, self.programs, self.taken = run, geometry, set(), {}
        self.register = run['begun'](run['decode_volume'](geometry.f_objects, geometry.f_blocks, server)[1])

    def call(self, call, answer, buffers):
        """Feeds one call, and holds the register against the buffers as the call left them."""
        run = self.run
        self.register = run['feed'](call, answer, self.register)
        model = run['decode_model'](self.geometry, buffers)
        if model[0] != 'Some':
            raise Unclear('the register: the buffers store nothing')
        model, slots = model[1], model[1].f_log.f_slots
        self.agree('server', run['replay'](self.register.f_mounted, run['sent_in'](self.register)), model.f_server)
        self.agree('view', run['view_of'](self.register), model.f_view)
        self.agree('what waits', run['waiting_in'](self.register), run['waiting_of'](slots))
        self.programs.update(a.f_recorded.f_program for a in self.register.f_operations)
        for program in self.programs:
            taken = self.taken[program] = self.taken.get(program, ()) + run['wrote'](program, call, answer)
            left = tuple(run['encode'](r) for r in run['losses_of'](program, slots))
            self.agree(f'losses of program {program}', run['lost_records'](program, self.register), taken + left)

    def agree(self, what, told, stored):
        if told != stored:
            raise Unclear(f'the register: {what} is another than the buffers store')


class Player:
    """Plays the lines of a script: the areas s, v and l, what is given and lent, and the calls by the definitions."""

    AREA, LONGEST_LINE, LONGEST_BYTES = 32768, 8191, 2048
    ENTRY_HEAD, BLOCK, LOG_HEAD, SLOT = 68, 1024, 8, 1048

    # the arguments of each line: a an area, n a number, = bytes
    LINES = {'give': 'nnn', 'size': 'nnn', 'fit': '', 'poke': 'an=', 'copy': 'aa', 'show': 'ann', 'digest': '',
             'format': '', 'mount': '', 'lookup': 'n=', 'list': 'nn=', 'stat': 'nn', 'read': 'nnn=', 'create': 'nn=n',
             'mkdir': 'nn=n', 'rmfile': 'nn=', 'rmdir': 'nn=', 'rename': 'nn=n=', 'write': 'nnn=', 'setlen': 'nnn',
             'forder': 'n=', 'push': 'n', 'fsync': 'nnn', 'cut': '', 'take': 'n=', 'renew': 'n', 'record': 'n='}
    # the calls that the definitions name otherwise, and those that print their buffer
    NAMES = {'create': 'create_file', 'mkdir': 'make_directory', 'rmfile': 'remove_file', 'rmdir': 'remove_directory',
             'setlen': 'set_length'}
    BUFFERED = {'list', 'read', 'take'}
    # the calls whose first argument tells who makes a change
    CHANGES = {'create', 'mkdir', 'rmfile', 'rmdir', 'rename', 'write', 'setlen', 'forder'}

    def __init__(self, translator, returned):
        self.translator, self.returned = translator, returned
        self.areas = {area: bytearray(self.AREA) for area in 'svl'}
        self.given, self.lengths, self.number, self.fed, self.fed_calls = [0, 0, 0], [0, 0, 0], 0, None, 0

    def play(self, script):
        """What a script prints, line by line."""
        lines = script.split('\n')
        for self.number, line in enumerate(lines if lines[-1] else lines[:-1], 1):
            try:
                printed = self.line(line)
            except BadLine:
                yield f'bad line {self.number}'
                return
            if printed is not None:
                yield printed

    def line(self, line):
        must(len(line) <= self.LONGEST_LINE)
        if line[:1] in ('', '#'):
            return None
        name, *words = line.split(' ')
        must(name in self.LINES and len(words) == len(self.LINES[name]))
        arguments = [self.argument(kind, word) for kind, word in zip(self.LINES[name], words)]
        own = getattr(self, f'line_{name}', None)
        return own(*arguments) if own else self.call(name, arguments)

    def argument(self, kind, word):
        must(re.fullmatch({'a': '[svl]', 'n': '0|[1-9][0-9]{0,19}', '=': '=(?:[0-9a-f]{2})*'}[kind], word))
        if kind == 'n':
            must(int(word) < 2 ** 64)
            return int(word)
        must(len(word) <= 1 + 2 * self.LONGEST_BYTES)
        return tuple(bytes.fromhex(word[1:])) if kind == '=' else word

    def line_give(self, *numbers):
        self.given, self.fed = numbers, None

    def line_size(self, *lengths):
        must(max(lengths) <= self.AREA)
        self.lengths, self.fed = lengths, None

    def line_fit(self):
        n, b, m = self.given
        volume = n * (self.ENTRY_HEAD + self.BLOCK * b)
        self.line_size(volume, volume, self.LOG_HEAD + m * self.SLOT)

    def line_poke(self, area, at, values):
        must(at + len(values) <= self.AREA)
        self.areas[area][at:at + len(values)], self.fed = bytes(values), None

    def line_copy(self, to, source):
        self.areas[to][:], self.fed = self.areas[source], None

    def line_show(self, area, at, length):
        must(length <= self.LONGEST_BYTES and at + length <= self.AREA)
        return '=' + self.areas[area][at:at + length].hex()

    def line_digest(self):
        return ' '.join(str(fnv_1a(bytes(area))) for area in self.areas.values())

    def record(self, **fields):
        return self.translator.space[self.translator.record(fields)](*[fields[f] for f in sorted(fields)])

    def made(self, name, arguments):
        """A call, as the definition of its name makes it of its arguments."""
        definition = self.translator.calls.get(self.NAMES.get(name, name))
        if definition is None or definition.arity != len(arguments):
            raise Unclear(f'{name}: no such call')
        if name in self.CHANGES:
            arguments = [self.translator.load(self.translator.calls['issuer'])(arguments[0])] + arguments[1:]
        return self.translator.load(definition)(*arguments)

    def call(self, name, arguments):
        """The returned number, the other results, and the call's own buffer."""
        run = self.translator.entries
        lent = [tuple(self.areas[area][:length]) for area, length in zip('svl', self.lengths)]
        geometry = self.record(objects=self.given[0], blocks=self.given[1], capacity=self.given[2])
        buffers = self.record(server=lent[0], view=lent[1], log=lent[2])
        own, left = (), lent
        if name == 'record':
            loss = run['loss_of'](arguments[0], run['decode_record'](arguments[1][arguments[0]:]))
            number, results = loss.f_returned, (loss.f_next, loss.f_sequence, loss.f_program, loss.f_kind)
        elif name == 'format':
            number, results, left = run['format'](geometry, lent[0]), (), [run['format_leaves'](geometry, lent[0])] + lent[1:]
            self.fed = None
        else:
            made = None if name == 'mount' else self.made(name, arguments)
            result = run['step'](geometry, made, buffers) if made else run['mount'](geometry, buffers)
            number, results, own = result.f_gives.f_returned, result.f_gives.f_results, result.f_gives.f_buffer
            left = [result.f_leaves.f_server, result.f_leaves.f_view, result.f_leaves.f_log]
            if made and self.fed:
                self.fed_calls += 1
                self.fed.call(made, result.f_gives, result.f_leaves)
            elif not made and number == 0:
                self.fed = Fed(run, geometry, left[0])
        for area, before, after in zip('svl', lent, left):
            if len(before) != len(after):
                raise Unclear(f'{len(after)} bytes are left in area {area}, {len(before)} were lent')
            if before != after:
                self.areas[area][:len(after)] = bytes(after)
        self.returned[number] += 1
        return ' '.join([str(number)] + [str(r) for r in results] + (['=' + bytes(own).hex()] if name in self.BUFFERED else []))


def difference(translator, script, returned, fed):
    """Where the answers to a script first differ from the stored ones; nothing if they do not."""
    text, stored = [file.read_bytes().decode('latin-1') for file in (script, script.with_suffix('.answers'))]
    player, answers, printed = Player(translator, returned), stored.split('\n'), []
    try:
        for line in player.play(text):
            printed.append(line)
            if printed != answers[:len(printed)]:
                break
    except (Unclear, ValueError, TypeError, AttributeError, IndexError, ArithmeticError, RecursionError, MemoryError) as error:
        printed.append(f'{type(error).__name__}: {error}')
    fed[0] += player.fed_calls
    if ''.join(line + '\n' for line in printed) == stored:
        return ''
    at = next((i for i, pair in enumerate(zip(printed, answers)) if pair[0] != pair[1]), len(printed))
    shown = [text.split('\n')[player.number - 1], ''.join(answers[at:at + 1]), ''.join(printed[at:at + 1])]
    return '{} differs at line {}: {:.120}\n  stored      {:.120}\n  definitions {:.120}'.format(script.stem, player.number, *shown)


def main():
    parser = argparse.ArgumentParser(description='Plays the stored call scripts by the definitions and compares the answers.')
    parser.add_argument('--root', type=pathlib.Path, default=pathlib.Path(__file__).resolve().parent.parent)
    parser.add_argument('scripts', nargs='*', type=pathlib.Path, metavar='SCRIPT')
    chosen = parser.parse_args()
    repository, start, returned, fed, differing = Repository(chosen.root), time.time(), collections.Counter(), [0], 0
    translator = Translator(repository)
    try:
        named = {'session': ('step', 'format', 'format_leaves', 'mount')}
        translator.entries = {name: translator.load(repository.defining(name, crate).definitions[name])
                              for crate, names in named.items() for name in names}
        translator.calls = repository.module('Rattle.session.specs.Call').definitions
        for path, names in {'register.specs.Register': 'begun sent_in waiting_in view_of', 'register.specs.Replay': 'replay',
                            'register.specs.Feed': 'feed', 'register.specs.Takes': 'wrote lost_records', 'record.specs.Fields': 'encode',
                            'log_rules.specs.Change': 'waiting_of losses_of', 'session.specs.Step': 'decode_model',
                            'volume_tree.specs.Stored': 'decode_volume', 'writebehind.specs.Loss': 'loss_of',
                            'record.specs.Decode': 'decode_record'}.items():
            for name in names.split():
                translator.entries[name] = translator.load(repository.module(f'Rattle.{path}').definitions[name])
    except Unclear as reason:
        print(f'not translated: {reason}')
        return 2
    scripts = chosen.scripts or sorted((chosen.root / 'cases').glob('*.script'))
    for script in scripts:
        told = difference(translator, script, returned, fed)
        differing += bool(told)
        if told:
            print(told, flush=True)
    refused = ', '.join(f'{count} with {number}' for number, count in sorted(returned.items()) if number)
    print(f'{translator.translated} definitions translated; {sum(returned.values())} calls played in {time.time() - start:.0f} s: '
          f'{returned[0]} accepted, refused {refused or "none"}; the register fed with {fed[0]}')
    print(f'{len(scripts)} scripts, {differing} differing')
    return 1 if differing or not scripts else 0


if __name__ == '__main__':
    # clauses call themselves as deep as lists are long
    sys.setrecursionlimit(10 ** 6)
    threading.stack_size(2 ** 29)
    ended = []
    thread = threading.Thread(target=lambda: ended.append(main()))
    thread.start()
    thread.join()
    sys.exit(ended[0] if ended else 2)
