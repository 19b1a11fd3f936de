"""Reads the programs of crates/definition/specs/Grammar.antt.

A program is a tuple:
  ('ret', text)            an answer                 ('call', name, args)    a step or a rule
  ('seq', binder, P, Q)    P, its answer bound, Q    ('test', cond, P, Q)    if cond then P otherwise Q
  ('scope', c, P)          checkpoint λ c. P         ('loop', name, args, init)
  ('while', C, P)          the Rust's while          ('look', what)          nth0, glued, here
  ('ask', how)             a test of what is seen: 1 kind, 'g' with the glued one, 2 kinds
  ('stop', number, place)  a refusal; the place is a binder, or None for "here"
"""
import re

ASKS = {'next_is': 1, 'next': 1, 'not_eof': 1, 'next_glued': 'g', 'is_pat': 'g', 'is_expr': 'g', 'is_expr_with': 'g',
        'lookahead': 2, 'is_stmt_recovering': 2}
LOOKS = {'peek': 'nth0', 'glued': 'glued', 'here': 'here'}


class Token:
    def __init__(self, text, line, col, first):
        self.text, self.line, self.col, self.first = text, line, col, first


def tokens(body):
    out = []
    for n, line in enumerate(body.split('\n')):
        first = True
        for m in re.finditer(r'[(),]|[^\s(),]+', line):
            text = m.group()
            # a λ's dot ends its binders
            if text.endswith('.') and len(text) > 1:
                out.append(Token(text[:-1], n, m.start(), first))
                out.append(Token('.', n, m.end() - 1, False))
            else:
                out.append(Token(text, n, m.start(), first))
            first = False
    return out


def words(ts):
    return ' '.join(t.text for t in ts).replace('( ', '(').replace(' )', ')').replace(' ,', ',')


class Parser:
    """One expression of the program language."""

    def __init__(self, ts):
        self.ts, self.i = ts, 0

    def peek(self):
        return self.ts[self.i].text if self.i < len(self.ts) else None

    def until(self, stop):
        """The tokens up to the word `stop` at this depth."""
        out, depth = [], 0
        while self.i < len(self.ts):
            t = self.ts[self.i]
            if depth == 0 and t.text == stop:
                break
            depth += {'(': 1, ')': -1}.get(t.text, 0)
            out.append(t)
            self.i += 1
        return out

    def expr(self):
        if self.peek() == 'if':
            self.i += 1
            cond = words(self.until('then'))
            self.i += 1
            yes = self.expr()
            assert self.peek() == 'otherwise', words(self.ts[self.i:])
            self.i += 1
            return ('test', cond, yes, self.expr())
        p = self.application()
        if self.peek() == '>>':
            self.i += 1
            return ('seq', None, p, self.expr())
        if self.peek() == '>>=':
            self.i += 1
            if self.peek() == 'λ':
                binder = self.ts[self.i + 1].text
                self.i += 3
                return ('seq', binder, p, self.expr())
            name = self.peek()
            self.i += 1
            return ('seq', 'it', p, known(name, ['it'], []))
        return p

    def application(self):
        if self.peek() == '(':
            return self.group()
        if self.peek() == 'do':
            return self.block()
        head = self.peek()
        self.i += 1
        args, progs = [], []
        while self.i < len(self.ts):
            w = self.peek()
            if w in ('>>', '>>=', 'otherwise', 'then', ')', ','):
                break
            if w == 'do':
                progs.append(self.block())
                args.append(None)
                break
            if w == 'λ':
                binder = self.ts[self.i + 1].text
                self.i += 3
                progs.append((binder, self.expr()))
                args.append(None)
                break
            if w == '(':
                ts = self.group_tokens()
                args.append('(' + words(ts) + ')')
                progs.append(ts)
                continue
            args.append(w)
            progs.append([self.ts[self.i]])
            self.i += 1
        return known(head, args, progs)

    def group_tokens(self):
        self.i += 1
        depth, out = 1, []
        while True:
            t = self.ts[self.i]
            depth += {'(': 1, ')': -1}.get(t.text, 0)
            self.i += 1
            if depth == 0:
                return out
            out.append(t)

    def group(self):
        return Parser(self.group_tokens()).expr()

    def block(self):
        """A `do` block: the statements that start at the column of its first."""
        self.i += 1
        col = self.ts[self.i].col
        rows = []
        while self.i < len(self.ts) and not (self.ts[self.i].first and self.ts[self.i].col < col):
            if self.ts[self.i].text == ')':
                break
            row, depth = [], 0
            while self.i < len(self.ts):
                t = self.ts[self.i]
                if depth == 0 and (t.text == ')' or row and t.first and t.col <= col):
                    break
                depth += {'(': 1, ')': -1}.get(t.text, 0)
                row.append(t)
                self.i += 1
            rows.append(row)
        return statements(rows)


def statements(rows):
    row = rows[0]
    if len(rows) == 1:
        return Parser(row).expr()
    binder = None
    if len(row) > 1 and row[1].text == '←':
        binder, row = row[0].text, row[2:]
    return ('seq', binder, Parser(row).expr(), statements(rows[1:]))


def as_program(x):
    return x if isinstance(x, tuple) else Parser(x).expr()


def known(head, args, progs):
    """The meaning of a word of the language; any other word is a call."""
    if head in LOOKS:
        return ('look', LOOKS[head])
    if head in ASKS:
        return ('ask', ASKS[head])
    if head == 'nth':
        raise ValueError('a bare nth')
    if head == 'ret':
        return ('ret', args[0])
    if head == 'skip':
        return ('ret', 'tt')
    if head == 'refuse':
        return ('stop', args[0], None)
    if head == 'stop':
        return ('stop', args[0], args[1])
    if head == 'when':
        return ('test', args[0], as_program(progs[1]), ('ret', 'tt'))
    if head == 'checkpoint':
        return ('scope',) + progs[0]
    if head == 'while':
        return ('while', as_program(progs[0]), as_program(progs[1]))
    if head == 'loop':
        f = args[0].strip('()').split()
        return ('loop', f[0], f[1:], args[1])
    return ('call', head, args)


def read(path):
    """name -> (parameters, program text's tree), for every definition that is a program."""
    out = {}
    for part in re.split(r'\n\s*\n', open(path).read()):
        lines = [l for l in part.split('\n') if not l.startswith('--')]
        if len(lines) < 2 or not re.match(r'(unfoldable|abbrev) pub (\S+) :.*Prog', lines[0]):
            continue
        name = lines[0].split()[2]
        m = re.match(re.escape(name) + r'((?: \S+)*?) =(.*)', lines[1])
        if not m or len(lines) > 2 and re.match(re.escape(name) + r' ', lines[2]):
            continue
        body = ' ' * (len(lines[1]) - len(m.group(2))) + m.group(2) + '\n' + '\n'.join(lines[2:])
        try:
            out[name] = (m.group(1).split(), Parser(tokens(body)).expr())
        except (ValueError, AssertionError, IndexError):
            pass
    return out


if __name__ == '__main__':
    import sys
    for k, v in read(sys.argv[1]).items():
        print(k, v)
