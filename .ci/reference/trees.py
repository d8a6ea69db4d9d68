"""Tokens, trees and the grammar, read simply from the text of the language: codes 10, 11, 12, 20, 70 and 71."""
import sys
from collections import namedtuple

sys.setrecursionlimit(20000)

KEYWORDS = set('''data exception box in out match fair handle stream from to wire initial let if then else case of end raise as
true false bool char int nat vector div mod and or not update'''.split())
SIGNS = sorted('( ) << >> < <= > >= == /= = -> | , ; :: . _ _* * + - @'.split(), key=len, reverse=True)
LOWERS = 'abcdefghijklmnopqrstuvwxyz'
UPPERS = LOWERS.upper()
DIGITS = '0123456789'
NAMING = set(LOWERS + UPPERS + DIGITS + '_')
ESCAPES = {"'\\n'": 10, "'\\t'": 9, "'\\\\'": 92, "'\\''": 39}

Token = namedtuple('Token', 'kind value place')


class Refused(Exception):
    def __init__(self, code, line):
        self.code, self.line = code, line


def line_of(text, place):
    return 1 + text.count('\n', 0, place)


class Lexer:
    """Reads one token after the other; places are offsets in bytes (the text is read as latin-1)."""

    def __init__(self, text):
        self.text, self.at = text, 0

    def bad(self, code, place):
        raise Refused(code, line_of(self.text, place))

    def skip(self):
        """Goes over blanks and comments."""
        while self.at < len(self.text):
            if self.text[self.at] in '\t\n\r ':
                self.at += 1
            elif self.text.startswith('--', self.at):
                end = self.text.find('\n', self.at)
                self.at = len(self.text) if end < 0 else end
            else:
                return

    def run_of(self, signs):
        start = self.at
        while self.at < len(self.text) and self.text[self.at] in signs:
            self.at += 1
        return self.text[start:self.at]

    def token(self):
        """The kind and the value of the next token, and the rule that it breaks, if it breaks one."""
        first = self.text[self.at]
        if first in LOWERS or first in UPPERS:
            word = self.run_of(NAMING)
            kind = 'word' if word in KEYWORDS else 'lo' if first in LOWERS else 'up'
            return kind, word, 12 if kind != 'word' and len(word) > 32 else None
        if first in DIGITS:
            number = int(self.run_of(DIGITS))
            return 'num', number, 11 if number > 2**64 - 1 else None
        if first == "'":
            return 'letter', self.letter(), None
        if first == '"':
            return 'quoted', self.quoted(), None
        sign = next((it for it in SIGNS if self.text.startswith(it, self.at)), None) or self.bad(10, self.at)
        self.at += len(sign)
        return 'sign', sign, None

    def letter(self):
        text = self.text[self.at:self.at + 4]
        if text in ESCAPES:
            self.at += 4
            return ESCAPES[text]
        if len(text) < 3 or text[2] != "'" or not 32 <= ord(text[1]) <= 126 or text[1] in "'\\":
            self.bad(10, self.at)
        self.at += 3
        return ord(text[1])

    def quoted(self):
        end = self.text.find('"', self.at + 1)
        inner = self.text[self.at + 1:end] if end > 0 else ''
        if end < 0 or not 1 <= len(inner) <= 255 or any(not 32 <= ord(x) <= 126 for x in inner):
            self.bad(10, self.at)
        self.at = end + 1
        return inner


def lex(text):
    """The tokens of a source."""
    lexer, tokens = Lexer(text), []
    lexer.skip()
    while lexer.at < len(text):
        start = lexer.at
        kind, value, broken = lexer.token()
        if len(tokens) == 65536:
            lexer.bad(71, start)
        if broken:
            lexer.bad(broken, start)
        tokens.append(Token(kind, value, start))
        lexer.skip()
    return tokens


# Types: ('bool',) ('char',) ('int', n) ('nat', n) ('vector', n, t) ('named', name) ('tuple', [t])
# Patterns: ('var', x) ('any',) ('num', negative, n) ('letter', c) ('truth', b) ('con', C, [p]) ('paren', p) ('tuple', [p])
#   and at positions ('star',) ('anystar',)
# Expressions: ('let', x, a, b) ('if', t, a, b) ('case', a, [(p, e)]) ('raise', E, e or None) ('binary', op, a, b) ('neg', a) ('not', a)
#   ('app', f, [a]) ('con', C, [a]) ('update', v, i, e) ('num', negative, n) ('letter', c) ('truth', b) ('paren', e) ('tuple', [e])
#   ('cast', e, t) ('vector', [e]) ('star',)

Sum = namedtuple('Sum', 'place name cons')
Exn = namedtuple('Exn', 'place name carried')
Fun = namedtuple('Fun', 'place name types equations')
Box = namedtuple('Box', 'place name ins outs fair rules handlers')
Stream = namedtuple('Stream', 'place name incoming port')
Wire = namedtuple('Wire', 'place first second depth initial')


class Parser:
    def __init__(self, tokens, text):
        self.tokens, self.text, self.at = tokens, text, 0

    def wrong(self):
        place = self.tokens[self.at].place if self.at < len(self.tokens) else len(self.text)
        raise Refused(20, line_of(self.text, place))

    def peek(self, ahead=0):
        at = self.at + ahead
        return self.tokens[at] if at < len(self.tokens) else Token('end', None, len(self.text))

    def sees(self, *values):
        token = self.peek()
        return token.kind in ('word', 'sign') and token.value in values

    def takes(self, value):
        if self.sees(value):
            self.at += 1
            return True
        return False

    def must(self, value):
        if not self.takes(value):
            self.wrong()

    def one(self, kind):
        token = self.peek()
        if token.kind != kind:
            self.wrong()
        self.at += 1
        return token.value

    def program(self):
        decls = []
        while self.at < len(self.tokens):
            decls.append(self.decl())
        return decls

    def decl(self):
        place = self.peek().place
        for word, read in (('data', self.data), ('exception', self.exception), ('box', self.box), ('stream', self.stream), ('wire', self.wire)):
            if self.takes(word):
                return read(place)
        return self.function(place)

    def data(self, place):
        name = self.one('up')
        self.must('=')
        cons = [self.con()]
        while self.takes('|'):
            cons.append(self.con())
        self.must(';')
        return Sum(place, name, cons)

    def exception(self, place):
        name = self.one('up')
        carried = None if self.sees(';') else self.type()
        self.must(';')
        return Exn(place, name, carried)

    def stream(self, place):
        name = self.one('lo')
        if not self.sees('from', 'to'):
            self.wrong()
        incoming = self.sees('from')
        self.at += 1
        port = self.one('quoted')
        self.must(';')
        return Stream(place, name, incoming, port)

    def wire(self, place):
        first = self.end()
        self.must('to')
        second = self.end()
        depth = self.one('num') if self.takes('@') else None
        initial = self.exp() if self.takes('initial') else None
        self.must(';')
        return Wire(place, first, second, depth, initial)

    def function(self, place):
        name = self.one('lo')
        self.must('::')
        types = [self.type()]
        self.must('->')
        types.append(self.type())
        while self.takes('->'):
            types.append(self.type())
        self.must(';')
        equations = [self.equation()]
        while self.peek().kind == 'lo' and not (self.peek(1).kind == 'sign' and self.peek(1).value == '::'):
            equations.append(self.equation())
        return Fun(place, name, types, equations)

    def equation(self):
        name = self.one('lo')
        pats = [self.patom()]
        while not self.sees('='):
            pats.append(self.patom())
        self.must('=')
        body = self.exp()
        self.must(';')
        return name, pats, body

    def con(self):
        name, types = self.one('up'), []
        while self.starts_type():
            types.append(self.type())
        return name, types

    def starts_type(self):
        return self.sees('bool', 'char', 'int', 'nat', 'vector', '(') or self.peek().kind == 'up'

    def type(self):
        if self.takes('bool'):
            return ('bool',)
        if self.takes('char'):
            return ('char',)
        if self.takes('int'):
            return ('int', self.one('num'))
        if self.takes('nat'):
            return ('nat', self.one('num'))
        if self.takes('vector'):
            count = self.one('num')
            self.must('of')
            return ('vector', count, self.type())
        if self.takes('('):
            parts = [self.type()]
            self.must(',')
            parts.append(self.type())
            while self.takes(','):
                parts.append(self.type())
            self.must(')')
            return ('tuple', parts)
        return ('named', self.one('up'))

    def ports(self):
        self.must('(')
        ports = []
        while True:
            name = self.one('lo')
            self.must('::')
            ports.append((name, self.type()))
            if not self.takes(','):
                break
        self.must(')')
        return ports

    def box(self, place):
        name = self.one('lo')
        self.must('in')
        ins = self.ports()
        self.must('out')
        outs = self.ports()
        if not self.sees('match', 'fair'):
            self.wrong()
        fair = self.sees('fair')
        self.at += 1
        rules = [self.rule()]
        while self.takes('|'):
            rules.append(self.rule())
        handlers = []
        if self.takes('handle'):
            handlers.append(self.handler())
            while self.takes('|'):
                handlers.append(self.handler())
        self.must(';')
        return Box(place, name, ins, outs, fair, rules, handlers)

    def rule(self):
        self.must('(')
        positions = [self.position()]
        while self.takes(','):
            positions.append(self.position())
        self.must(')')
        self.must('->')
        return positions, self.exp()

    def position(self):
        if self.takes('*'):
            return ('star',)
        if self.takes('_*'):
            return ('anystar',)
        return self.pat()

    def handler(self):
        name, bound = self.one('up'), None
        if self.peek().kind == 'lo':
            bound = ('var', self.one('lo'))
        elif self.takes('_'):
            bound = ('any',)
        self.must('->')
        return name, bound, self.exp()

    def end(self):
        name = self.one('lo')
        return name, self.one('lo') if self.takes('.') else None

    def starts_patom(self):
        return self.peek().kind in ('lo', 'up', 'num', 'letter') or self.sees('_', '-', 'true', 'false', '(')

    def pat(self):
        if self.peek().kind == 'up':
            name, parts = self.one('up'), []
            while self.starts_patom():
                parts.append(self.patom())
            return ('con', name, parts)
        return self.patom()

    def patom(self):
        kind = self.peek().kind
        if kind == 'lo':
            return ('var', self.one('lo'))
        if kind == 'num':
            return ('num', False, self.one('num'))
        if kind == 'letter':
            return ('letter', self.one('letter'))
        if kind == 'up':
            return ('con', self.one('up'), [])
        if self.takes('_'):
            return ('any',)
        if self.takes('-'):
            return ('num', True, self.one('num'))
        if self.takes('true'):
            return ('truth', True)
        if self.takes('false'):
            return ('truth', False)
        self.must('(')
        parts = [self.pat()]
        while self.takes(','):
            parts.append(self.pat())
        self.must(')')
        return ('tuple', parts) if len(parts) > 1 else ('paren', parts[0])

    def exp(self):
        if self.takes('let'):
            name = self.one('lo')
            self.must('=')
            value = self.exp()
            self.must('in')
            return ('let', name, value, self.exp())
        if self.takes('if'):
            test = self.exp()
            self.must('then')
            first = self.exp()
            self.must('else')
            return ('if', test, first, self.exp())
        if self.takes('case'):
            subject = self.exp()
            self.must('of')
            alternatives = [self.alternative()]
            while self.takes('|'):
                alternatives.append(self.alternative())
            self.must('end')
            return ('case', subject, alternatives)
        if self.takes('raise'):
            name = self.one('up')
            return ('raise', name, self.atom() if self.starts_atom() else None)
        return self.chain(0)

    def alternative(self):
        pat = self.pat()
        self.must('->')
        return pat, self.exp()

    LEVELS = [['or'], ['and'], ['==', '/=', '<', '<=', '>', '>='], ['+', '-'], ['*', 'div', 'mod']]

    def chain(self, level):
        if level == 5:
            return self.unary()
        left = self.chain(level + 1)
        while self.sees(*self.LEVELS[level]):
            operator = self.peek().value
            self.at += 1
            left = ('binary', operator, left, self.chain(level + 1))
            if level == 2:
                break
        return left

    def unary(self):
        if self.takes('-'):
            if self.peek().kind == 'num':
                return ('num', True, self.one('num'))
            return ('neg', self.unary())
        if self.takes('not'):
            return ('not', self.unary())
        left = self.app()
        while self.takes('@'):
            left = ('binary', '@', left, self.app())
        return left

    def starts_atom(self):
        return self.peek().kind in ('lo', 'up', 'num', 'letter') or self.sees('true', 'false', '(', '<<')

    def app(self):
        if self.takes('*'):
            return ('star',)
        if self.takes('update'):
            return ('update', self.atom(), self.atom(), self.atom())
        if self.peek().kind in ('lo', 'up'):
            head = 'app' if self.peek().kind == 'lo' else 'con'
            name, parts = self.one(self.peek().kind), []
            while self.starts_atom():
                parts.append(self.atom())
            return (head, name, parts)
        return self.atom()

    def atom(self):
        kind = self.peek().kind
        if kind == 'lo':
            return ('app', self.one('lo'), [])
        if kind == 'up':
            return ('con', self.one('up'), [])
        if kind == 'num':
            return ('num', False, self.one('num'))
        if kind == 'letter':
            return ('letter', self.one('letter'))
        if self.takes('true'):
            return ('truth', True)
        if self.takes('false'):
            return ('truth', False)
        if self.takes('<<'):
            items = [self.exp()]
            while self.takes(','):
                items.append(self.exp())
            self.must('>>')
            return ('vector', items)
        self.must('(')
        first = self.exp()
        if self.takes('as'):
            ty = self.type()
            self.must(')')
            return ('cast', first, ty)
        parts = [first]
        while self.takes(','):
            parts.append(self.exp())
        self.must(')')
        return ('tuple', parts) if len(parts) > 1 else ('paren', first)


def type_parts(t):
    return [t[2]] if t[0] == 'vector' else t[1] if t[0] == 'tuple' else []


def pat_parts(p):
    return p[2] if p[0] == 'con' else [p[1]] if p[0] == 'paren' else p[1] if p[0] == 'tuple' else []


def exp_parts(e):
    """The expressions right below one, in source order."""
    kind = e[0]
    if kind == 'let':
        return [e[2], e[3]]
    if kind in ('if', 'update'):
        return list(e[1:4])
    if kind == 'case':
        return [e[1]] + [body for _, body in e[2]]
    if kind == 'raise':
        return [] if e[2] is None else [e[2]]
    if kind == 'binary':
        return [e[2], e[3]]
    if kind in ('neg', 'not', 'paren', 'cast'):
        return [e[1]]
    if kind in ('app', 'con'):
        return e[2]
    if kind in ('tuple', 'vector'):
        return e[1]
    return []


def below(tree, parts):
    yield tree
    for part in parts(tree):
        yield from below(part, parts)


def exps_of(decl):
    if isinstance(decl, Fun):
        return [body for _, _, body in decl.equations]
    if isinstance(decl, Box):
        return [body for _, body in decl.rules] + [body for _, _, body in decl.handlers]
    if isinstance(decl, Wire) and decl.initial is not None:
        return [decl.initial]
    return []


def all_exps(decl):
    return [e for top in exps_of(decl) for e in below(top, exp_parts)]


def pats_of(decl):
    """The patterns of a declaration that are none of an expression's."""
    if isinstance(decl, Fun):
        return [p for _, pats, _ in decl.equations for p in pats]
    if isinstance(decl, Box):
        return [p for positions, _ in decl.rules for p in positions]
    return []


def all_pats(decl):
    tops = pats_of(decl) + [p for e in all_exps(decl) if e[0] == 'case' for p, _ in e[2]]
    return [p for top in tops for p in below(top, pat_parts)]


def declared_types(decl):
    """The types written in a declaration outside of its expressions."""
    if isinstance(decl, Sum):
        return [t for _, types in decl.cons for t in types]
    if isinstance(decl, Exn):
        return [] if decl.carried is None else [decl.carried]
    if isinstance(decl, Fun):
        return decl.types
    if isinstance(decl, Box):
        return [t for _, t in decl.ins + decl.outs]
    return []


def written_types(decl):
    return declared_types(decl) + [e[2] for e in all_exps(decl) if e[0] == 'cast']


def all_types(decl):
    return [t for top in written_types(decl) for t in below(top, type_parts)]


def variables(pats):
    return [p[1] for top in pats for p in below(top, pat_parts) if p[0] == 'var']


def depth(tree, parts):
    return 1 + max((depth(part, parts) for part in parts(tree)), default=0)
