#!/usr/bin/env python3
"""What a worker in occam means, written apart from tpw: texts are interpreted, with environments in place of calls in line.

    model.py <TEXTS     writes texts and packets, as README.md has them, with the answer of each packet

It takes good texts: of the faults that tpw reports it finds those that it stumbles over.
"""

import re
import sys

INT, BOOL, BYTE = 'INT', 'BOOL', 'BYTE'
BITS = 0xFFFFFFFF
LEAST, MOST = -0x80000000, 0x7FFFFFFF
MAX_TRACED = 256
CHAINED = {'+', '*', 'PLUS', 'TIMES', '/\\', '\\/', '><', 'AND', 'OR'}
SAME = {'REM': '\\', 'BITAND': '/\\', 'BITOR': '\\/', 'BITNOT': '~', 'INT32': 'INT'}
DYADIC = CHAINED | {'-', '/', '\\', 'MINUS', '<<', '>>', '=', '<>', '<', '>', '<=', '>=', 'AFTER'}
ESCAPES = {'n': 10, 'c': 13, 't': 9, 's': 32, "'": 39, '"': 34, '*': 42}
TOKEN = re.compile(
    r"(?P<space> +)|(?P<comment>--.*)|(?P<text>\"(?:\*.|[^\"*])*\")|(?P<char>'(?:\*#..|\*.|[^'*])')"
    r"|(?P<hex>#[0-9A-Fa-f]+)|(?P<number>[0-9]+)|(?P<name>[A-Za-z][A-Za-z0-9.]*)"
    r"|(?P<mark>:=|/\\|\\/|><|<<|>>|<>|<=|>=|[-+*/\\~=<>()\[\],:?!])"
)


class Fault(Exception):
    pass


class NoConstant(Exception):
    """A constant sets the flag, which is a fault of the text."""


def signed(word):
    return word - 0x100000000 if word > MOST else word


def spelled_bytes(body):
    """The bytes that characters between quotes stand for."""
    out = bytearray()
    place = 0
    while place < len(body):
        if body[place] != '*':
            out += body[place].encode()
            place += 1
        elif body[place + 1] == '#':
            out.append(int(body[place + 2:place + 4], 16))
            place += 4
        else:
            out.append(ESCAPES[body[place + 1].lower()])
            place += 2
    return bytes(out)


def tokens_of(line, number):
    found = []
    place = 0
    while place < len(line):
        token = TOKEN.match(line, place)
        if not token:
            raise Fault(f'{number}: {line[place:]}')
        if token.lastgroup not in ('space', 'comment'):
            word = token.group()
            found.append((token.lastgroup, SAME.get(word, word)))
        place = token.end()
    return found


def goes_on(tokens):
    kind, word = tokens[-1]
    return kind != 'text' and kind != 'char' and (word in DYADIC or word in (',', 'IS', ':=', '(', '[', '~', 'NOT'))


def lines_of(text):
    """Each line with what it says: how far it is indented, and its tokens. Broken lines are one."""
    lines = []
    broken = None
    for number, line in enumerate(text.split('\n'), 1):
        tokens = tokens_of(line.rstrip('\r'), number)
        if not tokens:
            continue
        if broken:
            broken[1].extend(tokens)
        else:
            lines.append((len(line) - len(line.lstrip(' ')), tokens, number))
        broken = lines[-1] if goes_on(lines[-1][1]) else None
    return lines


class Line:
    """The tokens of a line, from the left."""

    def __init__(self, tokens, number):
        self.tokens = tokens
        self.number = number
        self.place = 0

    def peek(self, ahead=0):
        place = self.place + ahead
        return self.tokens[place][1] if place < len(self.tokens) else None

    def kind(self):
        return self.tokens[self.place][0] if self.place < len(self.tokens) else None

    def next(self):
        word = self.peek()
        if word is None:
            raise Fault(f'{self.number}: ends early')
        self.place += 1
        return word

    def take(self, word):
        if self.peek() == word:
            self.place += 1
            return True
        return False

    def want(self, word):
        if not self.take(word):
            raise Fault(f'{self.number}: {word} is wanted, and here is {self.peek()}')

    def end(self):
        if self.peek() is not None:
            raise Fault(f'{self.number}: more than is wanted: {self.peek()}')

    def expressions(self):
        all_of_them = [self.expression()]
        while self.take(','):
            all_of_them.append(self.expression())
        return all_of_them

    def expression(self):
        """Operands of one operator, from the left."""
        word = self.peek()
        if self.kind() not in ('text', 'char'):
            if word in ('-', 'MINUS', '~', 'NOT', 'SIZE'):
                self.next()
                return ('monadic', word, self.operand())
            if word in (INT, BOOL, BYTE):
                self.next()
                return ('convert', word, self.operand())
        left = self.operand()
        operator = self.peek()
        if self.kind() in ('text', 'char') or operator not in DYADIC:
            return left
        while self.take(operator):
            left = ('dyadic', operator, left, self.operand())
            if operator not in CHAINED:
                break
        if self.peek() in DYADIC:
            raise Fault(f'{self.number}: brackets are wanted at {self.peek()}')
        return left

    def operand(self):
        kind, word = self.kind(), self.next()
        if kind == 'number':
            return ('number', int(word))
        if kind == 'hex':
            return ('number', int(word[1:], 16))
        if kind == 'char':
            return ('byte', spelled_bytes(word[1:-1])[0])
        if kind == 'text':
            return ('text', spelled_bytes(word[1:-1]))
        if word in ('TRUE', 'FALSE'):
            return ('truth', word == 'TRUE')
        if word in ('MOSTPOS', 'MOSTNEG'):
            self.want(INT)
            return ('number', (MOST if word == 'MOSTPOS' else LEAST) & BITS)
        if word == '(':
            inner = self.expression()
            self.want(')')
            return inner
        if word == '[':
            items = self.expressions()
            self.want(']')
            return ('list', items)
        if kind != 'name':
            raise Fault(f'{self.number}: an operand is wanted, and here is {word}')
        if self.take('['):
            subscript = self.expression()
            self.want(']')
            return ('element', word, subscript)
        if self.take('('):
            arguments = [] if self.peek() == ')' else self.expressions()
            self.want(')')
            return ('call', word, arguments)
        return ('name', word)

    def type(self):
        """A type: an element's, and how many of them: None for one, () for as many as there are, or an expression."""
        size = None
        if self.take('['):
            size = () if self.peek() == ']' else self.expression()
            self.want(']')
        word = self.next()
        if word not in (INT, BOOL, BYTE):
            raise Fault(f'{self.number}: a type is wanted, and here is {word}')
        return (word, size)

    def parameters(self):
        self.want('(')
        found = []
        passing, of = None, None
        while not self.take(')'):
            if self.take('VAL'):
                passing, of = 'VAL', self.type()
            elif self.take('CHAN'):
                self.want('OF')
                passing, of = 'CHAN', self.type()
            elif self.peek() in ('[', INT, BOOL, BYTE):
                passing, of = 'VAR', self.type()
            found.append((passing, of, self.next()))
            _ = self.take('?') or self.take('!')
            self.take(',')
        return found


class Parser:
    """Lines to a tree of tuples."""

    def __init__(self, text):
        self.lines = lines_of(text)
        self.place = 0

    def indent(self):
        return self.lines[self.place][0] if self.place < len(self.lines) else -1

    def line(self):
        _, tokens, number = self.lines[self.place]
        self.place += 1
        return Line(tokens, number)

    def first_words(self):
        return [word for _, word in self.lines[self.place][1]]

    def is_declaration(self):
        words = self.first_words()
        if words[0] in ('VAL', 'PROC', INT, BOOL, BYTE):
            return True
        return words[0] == '['

    def declaration(self, indent):
        line = self.line()
        if line.take('VAL'):
            of = None if line.peek(1) == 'IS' else line.type()
            name = line.next()
            line.want('IS')
            value = line.expression()
            line.want(':')
            return ('val', of, name, value)
        if line.take('PROC'):
            name = line.next()
            parameters = line.parameters()
            line.end()
            body = self.block(indent + 2)
            self.line().want(':')
            return ('proc', name, parameters, body)
        of = line.type()
        types = [of[0]]
        while line.take(','):
            types.append(line.type()[0])
        if line.take('FUNCTION'):
            name = line.next()
            parameters = line.parameters()
            if line.peek() is None:
                body = self.value_process(indent + 2)
                self.line().want(':')
                return ('valof', types, name, parameters, body)
            line.want('IS')
            value = line.expression()
            line.want(':')
            return ('function', of[0], name, parameters, value)
        names = [line.next()]
        if line.take('RETYPES'):
            array = line.next()
            line.want(':')
            return ('retypes', of, names[0], array)
        if line.take('IS'):
            value = line.expression()
            line.want(':')
            return ('other', of, names[0], value)
        while line.take(','):
            names.append(line.next())
        line.want(':')
        return ('variables', of, names)

    def value_process(self, indent):
        """Declarations, and VALOF: a process, and the results, which see these declarations alone."""
        declarations = []
        while self.is_declaration():
            declarations.append(self.declaration(indent))
        line = self.line()
        line.want('VALOF')
        line.end()
        process = self.block(indent + 2)
        line = self.line()
        line.want('RESULT')
        results = line.expressions()
        line.end()
        return (declarations, process, results)

    def block(self, indent):
        """Declarations, and the process that they are for."""
        declarations = []
        while self.indent() == indent and self.is_declaration():
            declarations.append(self.declaration(indent))
        if self.indent() != indent:
            raise Fault(f'{self.lines[self.place - 1][2]}: a process is wanted behind this')
        return ('block', declarations, self.process(indent))

    def process(self, indent):
        line = self.line()
        word = line.peek()
        if word in ('SKIP', 'STOP'):
            line.next()
            line.end()
            return (word,)
        if word == 'SEQ':
            line.next()
            return self.sequence(line, indent)
        if word == 'IF':
            line.next()
            line.end()
            choices = []
            while self.indent() == indent + 2:
                guard = self.line()
                condition = guard.expression()
                guard.end()
                choices.append((condition, self.block(indent + 4)))
            return ('if', choices)
        if word == 'CASE':
            line.next()
            selector = line.expression()
            line.end()
            choices = []
            while self.indent() == indent + 2:
                constants = self.line()
                values = [] if constants.take('ELSE') else constants.expressions()
                constants.end()
                choices.append((values, self.block(indent + 4)))
            return ('case', selector, choices)
        if line.peek(1) == '(':
            name, arguments = line.operand()[1:]
            line.end()
            return ('call', name, arguments)
        if line.peek(1) in ('?', '!'):
            name, mark = line.next(), line.next()
            what = line.expression()
            line.end()
            return ('receive' if mark == '?' else 'send', name, what)
        targets = line.expressions()
        line.want(':=')
        values = line.expressions()
        line.end()
        return ('assign', targets, values)

    def sequence(self, line, indent):
        index = None
        if line.peek() is not None:
            name = line.next()
            line.want('=')
            start = line.expression()
            line.want('FOR')
            index = (name, start, line.expression())
            line.end()
        steps = []
        while self.indent() == indent + 2:
            steps.append(self.block(indent + 2))
        return ('seq', index, steps)

    def program(self):
        declarations = []
        while self.place < len(self.lines):
            declarations.append(self.declaration(0))
        return declarations


class Array:
    """Words or bytes in storage that others may see too."""

    def __init__(self, of, memory, is_table=False):
        self.of = of
        self.memory = memory
        self.is_table = is_table
        self.width = 4 if of == INT else 1
        self.size = len(memory) // self.width

    def read(self, place):
        at = place * self.width
        return int.from_bytes(self.memory[at:at + self.width], 'little')

    def write(self, place, word):
        at = place * self.width
        self.memory[at:at + self.width] = (word & (BITS if self.width == 4 else 255)).to_bytes(self.width, 'little')


class Variable:
    def __init__(self, of):
        self.of = of
        self.word = 0

    def read(self):
        return self.word

    def write(self, word):
        self.word = word


class Element:
    def __init__(self, array, place):
        self.of = array.of
        self.array = array
        self.place = place

    def read(self):
        return self.array.read(self.place)

    def write(self, word):
        self.array.write(self.place, word)


class Value:
    def __init__(self, of, word, is_constant=False):
        self.of = of
        self.word = word
        self.is_constant = is_constant

    def read(self):
        return self.word


class Lost(Exception):
    pass


def operate(operator, left, right):
    """The word that an operator gives, and whether it sets the flag."""
    a, b = signed(left), signed(right)
    if operator in ('+', 'PLUS'):
        whole = a + b
    elif operator in ('-', 'MINUS'):
        whole = a - b
    elif operator in ('*', 'TIMES'):
        whole = a * b
    elif operator in ('/', '\\'):
        if b == 0 or (a == LEAST and b == -1):
            return 0, True
        quotient = abs(a) // abs(b)
        whole = quotient if (a < 0) == (b < 0) else -quotient
        if operator == '\\':
            whole = a - b * whole
    elif operator in ('<<', '>>'):
        count = right & 31
        return (left << count) & BITS if operator == '<<' else left >> count, right > 31
    elif operator == 'AFTER':
        return int(signed((a - b) & BITS) > 0), False
    else:
        word = {
            '/\\': left & right, '\\/': left | right, '><': left ^ right, '=': left == right, '<>': left != right,
            '<': a < b, '>': a > b, '<=': a <= b, '>=': a >= b,
        }[operator]
        return int(word), False
    return whole & BITS, operator in ('+', '-', '*') and not LEAST <= whole <= MOST


class Machine:
    """One packet's run."""

    def __init__(self, packet):
        self.packet = packet
        self.flag = False
        self.traced = bytearray()
        self.result = None

    # Expressions: each has a type, and a word or an array.

    def type_of(self, tree, names):
        kind = tree[0]
        if kind in ('number', 'text', 'list'):
            return None
        if kind == 'byte':
            return BYTE
        if kind == 'truth':
            return BOOL
        if kind in ('name', 'element'):
            return names[tree[1]].of
        if kind == 'call':
            return names[tree[1]][1]
        if kind == 'convert':
            return tree[1]
        if kind == 'monadic':
            return BOOL if tree[1] == 'NOT' else INT
        return BOOL if tree[1] in ('=', '<>', '<', '>', '<=', '>=', 'AFTER', 'AND', 'OR') else INT

    def word(self, tree, names):
        """The word of an expression. Where that is to set the flag it is set."""
        kind = tree[0]
        if kind in ('number', 'byte'):
            return tree[1]
        if kind == 'truth':
            return int(tree[1])
        if kind == 'name':
            return names[tree[1]].read()
        if kind == 'element':
            array = names[tree[1]]
            return array.read(self.subscript(tree[2], array.size, names))
        if kind == 'call':
            return self.function(tree, names)
        if kind == 'convert':
            return self.converted(tree[1], tree[2], names)
        if kind == 'monadic':
            return self.monadic(tree[1], tree[2], names)
        _, operator, left, right = tree
        if operator in ('AND', 'OR'):
            word = self.word(left, names)
            return self.word(right, names) if bool(word) == (operator == 'AND') else word
        word, sets = operate(operator, self.word(left, names), self.word(right, names))
        self.flag |= sets
        return word

    def subscript(self, tree, size, names):
        word = self.word(tree, names)
        if word < size:
            return word
        self.flag = True
        return (word & MOST) % size

    def converted(self, to, operand, names):
        word = self.word(operand, names)
        if to == BYTE:
            self.flag |= word > 255
            return word & 255
        return word

    def monadic(self, operator, operand, names):
        if operator == 'SIZE':
            return self.array(operand, names, None).size
        word = self.word(operand, names)
        if operator == '~':
            return word ^ BITS
        if operator == 'NOT':
            return 1 - word
        negated, sets = operate('-' if operator == '-' else 'MINUS', 0, word)
        self.flag |= sets
        return negated

    def function(self, tree, names):
        kind, _, parameters, value, own = names[tree[1]]
        if kind != 'function':
            raise Fault(f'{tree[1]} stands in an expression')
        return self.word(value, {**own, **self.arguments(parameters, tree[2], names)})

    def results(self, tree, names):
        """The words that a FUNCTION with a body gives: its process is done among its own names, and then they are worked out."""
        _, types, parameters, (declarations, process, results), own = names[tree[1]]
        own = {**own, **self.arguments(parameters, tree[2], names)}
        for declaration in declarations:
            self.declare(declaration, own)
        self.block(process, own)
        if len(types) != len(results):
            raise Fault(f'{len(types)} results are wanted')
        return [self.word(result, own) for result in results]

    def array(self, tree, names, of):
        """The array of a name, or of a table that is written there."""
        if tree[0] == 'name':
            return names[tree[1]]
        if tree[0] == 'text':
            return Array(BYTE, bytearray(tree[1]), True)
        if tree[0] != 'list':
            raise Fault(f'an array is wanted: {tree}')
        of = of or next((one for one in (self.type_of(item, names) for item in tree[1]) if one), INT)
        table = Array(of, bytearray(len(tree[1]) * (4 if of == INT else 1)), True)
        for place, item in enumerate(tree[1]):
            table.write(place, self.word(item, names))
        return table

    def is_array(self, tree, names):
        return tree[0] in ('text', 'list') or (tree[0] == 'name' and isinstance(names.get(tree[1]), Array))

    def arguments(self, parameters, arguments, names):
        """What a call's parameters name."""
        if len(parameters) != len(arguments):
            raise Fault(f'{len(parameters)} arguments are wanted')
        found = {}
        for (passing, (of, size), name), tree in zip(parameters, arguments):
            if passing == 'CHAN':
                found[name] = names[tree[1]]
            elif size is not None:
                found[name] = self.array(tree, names, of)
            elif passing == 'VAL':
                found[name] = Value(of, self.word(tree, names), self.is_constant(tree, names))
            else:
                found[name] = self.target(tree, names)
        return found

    # Declarations

    def is_constant(self, tree, names):
        kind = tree[0]
        if kind in ('number', 'byte', 'truth'):
            return True
        if kind == 'name':
            value = names[tree[1]]
            return isinstance(value, Value) and value.is_constant
        if kind == 'element':
            return names[tree[1]].is_table and self.is_constant(tree[2], names)
        if kind == 'call':
            return all(self.is_constant(argument, names) for argument in tree[2])
        if kind == 'monadic' and tree[1] == 'SIZE':
            return True
        return all(self.is_constant(operand, names) for operand in tree[2:])

    def named_value(self, of, tree, names):
        """The value of a VAL, which may set the flag only where it is no constant."""
        before, self.flag = self.flag, False
        word, is_constant = self.word(tree, names), self.is_constant(tree, names)
        if self.flag and is_constant:
            raise NoConstant
        self.flag |= before
        return Value(of, word, is_constant)

    def declare(self, declaration, names):
        kind = declaration[0]
        if kind == 'val':
            _, of, name, tree = declaration
            if self.is_array(tree, names):
                names[name] = self.array(tree, names, of and of[0])
            else:
                names[name] = self.named_value(of[0] if of else self.type_of(tree, names) or INT, tree, names)
        elif kind == 'variables':
            _, (of, size), new = declaration
            for name in new:
                if size is None:
                    names[name] = Variable(of)
                else:
                    names[name] = Array(of, bytearray(self.word(size, names) * (4 if of == INT else 1)))
        elif kind == 'retypes':
            _, (of, _), name, array = declaration
            names[name] = Array(of, names[array].memory, names[array].is_table)
        elif kind == 'other':
            _, (of, size), name, tree = declaration
            names[name] = self.target(tree, names) if size is None else self.array(tree, names, of)
        elif kind == 'proc':
            _, name, parameters, body = declaration
            names[name] = ('proc', None, parameters, body, dict(names))
        elif kind == 'valof':
            _, types, name, parameters, body = declaration
            names[name] = ('valof', types, parameters, body, dict(names))
        else:
            _, of, name, parameters, value = declaration
            names[name] = ('function', of, parameters, value, dict(names))

    # Processes

    def block(self, block, names):
        _, declarations, process = block
        if declarations:
            names = dict(names)
            for declaration in declarations:
                self.declare(declaration, names)
        self.run(process, names)

    def target(self, tree, names):
        if tree[0] == 'element':
            array = names[tree[1]]
            return Element(array, self.subscript(tree[2], array.size, names))
        return names[tree[1]]

    def run(self, process, names):
        getattr(self, 'run_' + process[0].lower())(names, *process[1:])

    def run_skip(self, _names):
        pass

    def run_stop(self, _names):
        self.flag = True

    def run_seq(self, names, index, steps):
        if index is None:
            for step in steps:
                self.block(step, names)
            return
        name, start, count = index
        first = self.word(start, names)
        for turn in range(self.word(count, names)):
            inner = {**names, name: Value(INT, (first + turn) & BITS)}
            for step in steps:
                self.block(step, inner)

    def run_if(self, names, choices):
        for guard, block in choices:
            if self.word(guard, names):
                self.block(block, names)
                return
        self.flag = True

    def run_case(self, names, selector, choices):
        word = self.word(selector, names)
        otherwise = None
        for constants, block in choices:
            if not constants:
                otherwise = block
            elif any(self.word(constant, names) == word for constant in constants):
                self.block(block, names)
                return
        if otherwise:
            self.block(otherwise, names)
        else:
            self.flag = True

    def run_call(self, names, name, arguments):
        _, _, parameters, body, own = names[name]
        self.block(body, {**own, **self.arguments(parameters, arguments, names)})

    def run_assign(self, names, targets, values):
        if len(targets) == 1 and self.is_array(targets[0], names):
            to = names[targets[0][1]]
            to.memory[:] = bytes(self.array(values[0], names, to.of).memory)
            return
        places = [self.target(target, names) for target in targets]
        if values[0][0] == 'call' and names[values[0][1]][0] == 'valof':
            words = self.results(values[0], names)
        else:
            words = [self.word(value, names) for value in values]
        if len(places) != len(words):
            raise Fault(f'{len(words)} targets are wanted')
        for place, word in reversed(list(zip(places, words))):
            place.write(word)

    def run_receive(self, names, _channel, what):
        place = self.target(what, names)
        if isinstance(place, Array):
            place.memory[:] = self.packet
        else:
            place.write(int.from_bytes(self.packet, 'little'))

    def run_send(self, names, channel, what):
        if self.is_array(what, names):
            message = bytes(self.array(what, names, names[channel][1]).memory)
        else:
            message = self.word(what, names).to_bytes(4, 'little')
        if names[channel][0] == 'trace':
            self.traced += message
        else:
            self.result = message


def run(tree, packet):
    """The result, the flag and the traces of a packet; None where it is lost."""
    machine = Machine(packet)
    names = {}
    for declaration in tree:
        machine.declare(declaration, names)
    _, _, parameters, body, own = names[tree[-1][1]]
    for (_, (of, _), name), role in zip(parameters, ('packet', 'result', 'trace')):
        own[name] = (role, of)
    machine.flag = False
    machine.block(body, own)
    if len(machine.traced) > MAX_TRACED:
        return None
    return machine.result, machine.flag, bytes(machine.traced)


def parse(text):
    return Parser(text).program()


def digits(message):
    return message.hex() or '-'


def answer(tree, packet):
    given = run(tree, packet)
    if given is None:
        return 'lost'
    result, flag, traced = given
    return f'{digits(result)} {int(flag)} {digits(traced)}'


def parts(tree):
    """A tree, and all that are in it."""
    yield tree
    for part in tree:
        if isinstance(part, (tuple, list)):
            yield from parts(part)


def is_literal(tree):
    """Whether an expression has no name."""
    kind = tree[0] if tree else None
    return kind in ('number', 'byte', 'truth') or kind in ('dyadic', 'monadic', 'convert') and all(map(is_literal, tree[2:]))


def sets_flag(tree):
    """Whether a VAL has a part without names that sets the flag. Where its names are constants too that is a fault, also where no packet
    comes, which this interpreter does not see; where one is a variable it is none, and the worker is left out all the same."""
    machine = Machine(b'')
    for declaration in parts(tree):
        if declaration and declaration[0] == 'val':
            for part in filter(is_literal, parts(declaration[3])):
                machine.word(part, {})
    return machine.flag


def answered(lines):
    """A worker's lines, with the answers of its packets; none where a constant sets the flag."""
    is_packet = [line.startswith('@packet ') for line in lines]
    tree = parse('\n'.join(line for line, packet in zip(lines[1:], is_packet[1:]) if not packet))
    if sets_flag(tree):
        return []
    try:
        return [f'{line} > {answer(tree, bytes.fromhex(line.split()[1]))}' if packet else line
                for line, packet in zip(lines, is_packet)]
    except NoConstant:
        return []


def main():
    workers = []
    for line in sys.stdin:
        if line.startswith('@worker '):
            workers.append([])
        workers[-1].append(line.rstrip('\n'))
    for lines in workers:
        for line in answered(lines):
            print(line)


if __name__ == '__main__':
    sys.setrecursionlimit(10000)
    main()
