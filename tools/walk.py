#!/usr/bin/env python3
"""walk.py CRATE [FUNCTION..]: writes the proofs of a crate's rules, from the top of the repository.

A rule's code and its program in crates/definition/specs/Grammar.antt take the same steps in the same order. So a proof is read off the two:
the program is walked along the places of the code on the way to each goal (`rt check --generated DIR --old-names` lists them), and each step gives one law
of crates/tape/specs/Steps.antt. docs/CONTRIBUTING.md says how code has to be written for that, and what the words in CRATE's words file mean.

    a call that goes on       both W REST          a look           look / touch / spot
    a call that is refused    cut W                a test of it     ask / ask_glued / ask_second / ask_ahead
    what `?` hands on         thrown W             a checkpoint     scoped / unscoped
    a test of the program     if_yes / if_no       a refusal        refuses / halt
    the end                   nothing / ends       a counted rule   entered / entered_as / barred
    a loop                    inv_end (last ..), inv_end (last_cut ..), inv_again

A goal that the check finds by itself gets no answer. The checker judges what is written; a rule that this script cannot walk is proved by hand and named under
`by-hand` in the words file.
"""
import json
import os
import re
import subprocess
import sys
import tempfile

sys.path.insert(0, os.path.dirname(os.path.abspath(__file__)))
import programs

GRAMMAR = 'crates/definition/specs/Grammar.antt'
# the ladders of the definition as the code's functions cut them, equal by computation
CUTS = 'crates/grammar/specs/Cuts.antt'
# the crates whose functions a rule may call
CRATES = ('kinds', 'tape', 'pieces', 'grammar', 'krosstavel')
UNFOLDABLE = set(re.findall(r'^unfoldable pub (\S+) :', open(GRAMMAR).read(), re.M))
# the classes of kinds, each with the words of its definition
CLASSES = {m[1]: set(re.split(r'[\s()]+', m[2]))
           for m in re.finditer(r'^unfoldable pub (\S+) :(.*?)(?=^\S+ pub |\Z)', open('crates/definition/specs/Classes.antt').read(), re.M | re.S)}
CUT = set(re.findall(r'^unfoldable pub (\S+) :', open(CUTS).read(), re.M))
KINDS = {name: int(number) for name, number in re.findall(r'^(\S+) = (\d+)$', open('crates/definition/specs/Kinds.antt').read(), re.M)}
# the modes that a `match` decides: how the code's is read, and the arm where the test holds
MODES = {'is_ranged': ('range_of', 'Yes'), 'is_binary': ('binary_of', 'Yes'), 'recovers': ('cx_of', 'StmtCx'), 'are_exprs': ('listed_of', 'Exprs')}
# the code's names of the kinds
CODES = {name: int(number) for name, number in re.findall(r'^pub const (\w+): u8 = (\d+);', open('crates/kinds/src/lib.rt').read(), re.M)}
# the code's function that looks the next operator up
AHEAD = 'lookahead'
LOOKS = ('peek', 'glued', 'peek_second', 'here')
# calls whose answer is no step's
ENTRIES = ('mark', 'enter')
OTHERS = {'from_residual': 'thrown', 'refusal': 'refusal', 'leave': 'leave'}
# the programs whose answer is dropped
WRAPS = ('take_if', 'take_while')
# the laws of crates/laws/specs/Progress.antt that ask nothing, a class of the next kind, a class of it with the one glued to it; the others ask for a token
FURTHER_ANY = {'stmt': 'stmt_further', 'expr': 'expr_further', 'expr_with': '(λ i d n s. expr_with_further i d n s _ _ _)'}
FURTHER_SAW = {'path': 'is_path_component', 'generic_path': 'is_path_component'}
FURTHER_GLUED = {'pat': 'kind_is_pat', 'pat_item': 'is_pat_or_rest', 'pat_or_rest': 'is_pat_or_rest', 'match_case': 'kind_is_pat', 'select_case': 'is_select_arm'}
# a kind of a class is no Eof
SOME = {'is_path_component': 'path_component_some _', 'is_use_path': 'use_path_some _', 'is_object_key': 'object_key_some _',
        'glues': 'glues_some _ _ _ _ refl', 'is_use_part': 'none_eof is_use_part (at_eof Brace.Yes Range.Yes 0).use_part',
        'is_stmt_recovering': 'recovering_some _ _', 'is_some': 'some_is_some _'}
HEAD = '''-- Written by tools/walk.py from the code and its program; docs/CONTRIBUTING.md says how.
-- Assumes nothing.
'''
# what answers and invariants may cite; a file gets those that it cites
LAWS = '''use Rattle.std.specs.Prelude.{◌+◌, ◌*◌, Bool, true, false, cond, eqb}
use Rattle.std.proofs.Math.Path.{refl, sym, ap}
use Rattle.std.proofs.Common.{◌∙◌, inl, inr, arith}
use borrow.Author.Tests.{eq-eqb, ne_eqb}
use Rattle.definition.specs.Classes.{CLASSES}
use Rattle.definition.specs.Modes.{Brace, Range, is_ranged, is_binary, recovers, are_exprs}
use Rattle.kinds.specs.Modes.{range_of, binary_of, cx_of, listed_of}
use Rattle.definition.specs.Prog.{bump, repeat}
use Rattle.definition.specs.Grammar.{GRAMMAR}
use Rattle.laws.specs.Progress.{FURTHER, path_component_some, use_path_some, object_key_some, glues_some, recovering_some}
use Rattle.kinds.specs.Laws.{not_eof as none_eof, at_eof}
use Rattle.tape.specs.Numbers.{number_of}
use Rattle.tape.specs.declared.Tape.{Tape}
use Rattle.tape.specs.Steps.{Loop, fuel, burns, kept_on, either, marked_now, step_marked, not_key, both, cut, thrown, thrown_ran, ends, if_yes, if_no, look, touch, spot, ask, ask_glued, ask_second, ask_second_as, scoped, unscoped, nothing, nothing_as, halt, refuses, inv_start, inv_again, inv_end, last, last_cut}
use Rattle.tape.specs.Counted.{entered, entered_as, barred, yes_no, goes_on, goes_some, goes_saw, goes_glued, and_on}
use Rattle.grammar.specs.Cuts.{CUTS}'''


# ## Terms

def split(text, sep):
    """The parts of a text between separators that stand in no parentheses or braces."""
    out, depth, cur = [], 0, ''
    for ch in text:
        depth += {'(': 1, ')': -1, '{': 1, '}': -1}.get(ch, 0)
        if ch == sep and depth == 0:
            out.append(cur)
            cur = ''
        else:
            cur += ch
    return [x for x in out + [cur] if x.strip()]


def arg(term):
    """A term where an argument or the head of a projection stands."""
    return term if len(split(term, ' ')) == 1 else f'({term})'


def of(term, field):
    return f'{arg(term)}.{field}'


def law(name, *terms):
    return ' '.join([name] + [arg(t) for t in terms])


def tuple_of(terms):
    return terms[0] if len(terms) == 1 else f"({', '.join(terms)})"


# ## The code's contracts

class Function:
    """A function's contract: what it asks, the program it runs, what it answers, and the mark it closes over; and the tests of its body, in order."""

    def __init__(self, crate, module, name, parts, text):
        self.crate, self.module, self.name = crate, module, name
        self.answer, requires, clause, ensures = parts
        # the clause that names the program, where another stands beside it; and whether the cycle goes through several modules
        self.clause, self.wide = f'.{clause.strip()}' if clause else '', False
        self.asks = [a.strip() for a in split(requires, '×')] if requires else []
        m = re.match(r'(Ran|Step (\S+)) (.*)', ensures)
        self.rule = bool(m)
        self.mark = m[2] if m else None
        if m:
            program, answer = split(m[3], ' ')[:2]
            # how the code's answer is read as the definition's
            self.reads = None if answer == 'result' else answer.strip('()').split()[0]
            head = split(program[1:-1] if program[0] == '(' else program, ' ')
            given = {b: a for line in re.findall(r'^\s*ghost use [^;]*;', text, re.M) for a, b in re.findall(r'([^\s{,]+) as (\w+)', line)}
            self.head, self.args = given.get(head[0], head[0]), head[1:]
        cycle = re.search(r'^#\[cycle\((\w+)\)\]\n(?:pub(?:\(\w+\))? )?fn ' + name + r'\(', text, re.M)
        self.cycle = cycle[1] if cycle else None
        body = re.search(r'^( *)(?:pub(?:\(\w+\))? )?fn ' + name + r'\(.*?\n\1\}\n', text, re.M | re.S)
        self.body = re.sub(r'//.*', '', body[0])
        # the arms of several kinds
        self.rows = [[CODES[k] for k in r.split(' | ')] for r in re.findall(r'(?m)^ *([A-Z_]+(?: \| [A-Z_]+)+) =>', self.body)]
        self.tests = [' '.join(t.split()) for t in re.findall(r'\b(?:if|while) (?!let )(.*?) (?:\{\n|=>)', self.body, re.S)]

    def ask(self, word):
        """Where a part of what is asked stands: '' for the whole, '.0', '.1' .."""
        for n, a in enumerate(self.asks):
            if a.strip('( ').startswith(word):
                return '' if len(self.asks) == 1 else f'.{n}'
        return None

    def unit(self):
        """The module that the function is proved in: its own, or its cycle's."""
        return '.'.join(([self.module] if self.module and not (self.cycle and self.wide) else []) + [f'+{self.cycle}' if self.cycle else self.name])


def contracts(crate):
    out = {}
    folder = f'crates/{crate}/src'
    for file in sorted(os.path.relpath(os.path.join(at, f), folder) for at, _, names in os.walk(folder) for f in names):
        text = open(f'{folder}/{file}').read()
        module = '' if file == 'lib.rt' else file[:-3].replace('/', '.')
        for m in re.finditer(r'fn (\w+)\([^)]*\)(?: -> (?:Result<(.*?), Refusal>|[^{]*?))?\n(?:\s+requires \{ (.*?) \}\n)?\s+ensures (\w* ?)\{ (.*?) \}\n', text):
            out[m[1]] = Function(crate, module, m[1], m.groups()[1:], text)
    for f in out.values():
        f.wide = len({g.module for g in out.values() if g.cycle == f.cycle}) > 1
    return out


# ## The places of a function

class Places:
    """The places of a function's code and its goals. A place has the one before it, and the step that leads to it under an old and today's name; the old one says
    what kind of step it is, and today's is cited."""

    def __init__(self, record, fn):
        self.before = {p[0]: p[1] for p in record['places']}
        self.step = {p[0]: p[2] for p in record['places']}
        self.callee = {p[0]: p[3].split('::')[-1] for p in record['places'] if p[3]}
        # today's name of each goal that is asked: its old name, and its place
        self.goals = {new: (re.sub(r'-\d+$', '', old), at[0]) for (old, new), at in zip(record['needs'], record['asked_at'])}
        # the clauses of those that are asked one by one
        self.clauses = {new: record['asked'].get(old, []) for old, new in record['needs']}
        self.stem = record['stem']
        self.loop = record['loops'][0][0][1] if record['loops'] else None
        self.fn = fn

    def way(self, place):
        """The places up to this one, from the function's start."""
        out = []
        while place:
            out.append(place)
            place = self.before.get(place)
        return out[::-1]

    def test(self, place):
        """The condition that was tested on the way to a place."""
        return self.fn.tests[int(self.step[place][0][2:]) - 1]

    def keys(self, place):
        """The keys of all arms of the `match` of which this place is an arm."""
        arms = [self.step[p][1] for p in self.step if self.before[p] == self.before[place] and self.step[p][0] == self.step[place][0]]
        return [k for a in arms for k in self.arm(a)]

    def is_option(self, place):
        """Whether the arm is one of Some and None."""
        return any(self.step[p][1].startswith('in-Some') for p in self.step if self.before[p] == self.before[place] and self.step[p][0] == self.step[place][0])

    def arm(self, name):
        """The keys of an arm: the one that it is named after, and those that stand behind it."""
        key = re.match(r'in-(\d+)', name)
        row = key and next((r for r in self.fn.rows if r[0] == int(key[1])), None)
        return row or ([int(key[1])] if key else [])


class Element:
    """A step of the code on the way: a call, one of the two ways on from its `?`, a look, a test, a loop, the start."""

    def __init__(self, kind, name, term):
        self.kind, self.name, self.term = kind, name, term
        # of a test: its condition, and whether it holds here
        self.test, self.holds = None, False
        # of an arm: its keys, or those of the others; and which of its keys it is, where it has several
        self.keys, self.one = [], None

    def as_one(self, key, fact):
        """An arm of several kinds, where it is this one."""
        e = Element(self.kind, self.name, self.term)
        e.keys, e.one = [key], fact
        return e

    def fact(self):
        if self.kind == 'key':
            return self.one or f'{self.term}.is'
        return f"{self.term}.{'true' if self.holds else 'false'}"


class Stuck(Exception):
    pass


class Walk:
    def __init__(self, fn, places, known, defs, words, cycle):
        self.fn, self.places, self.known, self.defs, self.words, self.cycle = fn, places, known, defs, words, cycle
        self.opened, self.classes = [], set()
        self.coded = {f.head for f in known.values() if f.rule} | {'bump', 'flush', 'close'} | set(WRAPS)
        self.tree = self.inlined(defs[words.get('as', fn.head)][1])

    def inlined(self, p, given={}):
        """A program that no function runs stands where it is used, with the programs that it is given."""
        if p[0] == 'call' and p[1] in given:
            return self.inlined(programs.Parser(programs.tokens(given[p[1]])).expr())
        if p[0] == 'call' and p[1] not in self.coded and p[1] in self.defs:
            params, tree = self.defs[p[1]]
            self.opened.append(p[1])
            return self.inlined(tree, dict(zip(params, p[2])))
        return tuple(self.inlined(x, given) if isinstance(x, tuple) else x for x in p)

    # ### The steps on the way to a place

    def elements(self, place):
        found, called = [], None
        for p in self.places.way(place):
            e = self.element(p)
            if not e:
                continue
            called = e.name if e.kind == 'call' else called
            # the two ways on from a `?` are told by the call that it stands behind
            e.name = called if e.kind in ('ok', 'err') else e.name
            found.append(e)
        return found

    def element(self, place):
        old, new = self.places.step[place]
        term = f'c.{new}'
        if not old:
            return Element('pre', 'pre', 'c.requires')
        if re.fullmatch(r'(.*-)?(Then|Else)\d*', place):
            e = Element('if', old, term)
            e.test, e.holds = self.places.test(place), 'Then' in place.split('-')[-1]
            return e
        if place.startswith('At-match'):
            return self.arm(place, new, term)
        if re.fullmatch(r'loop\d*', old):
            return Element('loop', old, term)
        name = self.places.callee.get(place)
        if name in LOOKS:
            return Element('look', name, term)
        if name in OTHERS:
            return Element(OTHERS[name], name, term)
        f = self.known.get(name)
        return f and Element('call' if f.rule or name in ENTRIES else 'value', name, term)

    def arm(self, place, new, term):
        way = re.match(r'in_(ok|err)-', new)
        if way:
            return Element(way[1], new, term)
        if self.places.is_option(place):
            return Element('some' if new.startswith('in-') else 'none', new, term)
        mode = re.match(r'in-([A-Z]\w*)', new)
        if mode:
            return Element('mode', mode[1], term)
        e = Element('key' if new.startswith('in-') else 'rest', new, term)
        e.keys = self.places.arm(new) or self.places.keys(place)
        return e

    # ### What holds at a point of the way

    def pre(self, e, word):
        part = self.fn.ask(word)
        if part is None:
            raise Stuck(f'nothing asked of {word}')
        return e.term + part

    def did(self, e, mark='_'):
        """What a call did: its step, under any mark where it closes over none."""
        if e.name == 'mark':
            return f'{e.term}.ensures.ran.under {mark}'
        done = f'{e.term}.ensures{self.known[e.name].clause}' + ('' if self.known[e.name].mark else f'.under {mark}')
        wrap = self.words.get('wrap', {}).get(e.name, '{}')
        return wrap.replace('{}', arg(done)) if wrap != '{}' else done

    def inv(self, e):
        return f"{e.term}.invariant{'.loop' if 'next' in self.words else ''}"

    def under(self, e, mark):
        """Where a loop stands, under a mark: any, or the one that its turns close over."""
        return of(self.inv(e), 'at') if self.words.get('at') else f'{self.inv(e)}.under {mark}'

    def standing(self, inv):
        return f'record {{ at = {inv} }}' if self.words.get('at') else f'record {{ under = λ m. {inv} }}'

    def marked(self, els):
        """The mark of the scope that the way is in, or of the caller, is one."""
        start, term = 1, None
        if self.tree[0] == 'scope':
            start = 1 + next(n for n, e in enumerate(els) if e.kind == 'ok' and e.name == 'mark')
            term = law('marked_now', f'{els[start - 1].term}.ensures')
        else:
            term = self.pre(els[0], 'Marked')
        for e in els[start:]:
            if e.kind == 'ok':
                term = law('step_marked', self.did(e), term)
            if e.kind == 'loop':
                term = law(of(self.under(e, '_'), 'marked'), term)
        return term

    def kept(self, els):
        """That the lists and the entries left are kept, of each step on the way that goes on."""
        return [of(self.did(e, '0'), 'kept') for e in els if e.kind == 'ok' and e.name != 'enter'] + [of(self.under(e, '0'), 'kept') for e in els if e.kind == 'loop']

    # ### The walk: a term for Step _ P _ .., from element i on; and where it ends

    def test(self, els, i):
        e = els[i]
        m = re.fullmatch(r'(.*) (==|!=) (.*)', e.test)
        if m and (m[2] == '==') == e.holds:
            return 'if_yes', law('eq-eqb _ _', e.fact())
        if m:
            return 'if_no', law('ne_eqb _ _', e.fact())
        value = els[i - 1] if els[i - 1].kind == 'value' else None
        return 'if_yes' if e.holds != e.test.startswith('!') else 'if_no', f'sym {value.term}.ensures ∙ {e.fact()}' if value else e.fact()

    def skip(self, els, i, kinds):
        while i < len(els) and els[i].kind not in kinds:
            if els[i].kind not in ('value', 'rest'):
                raise Stuck(f'{kinds} expected, found {els[i].kind} {els[i].name}')
            i += 1
        if i >= len(els):
            raise Stuck(f'{kinds} expected at the end')
        return i

    def walk(self, p, els, i, top=False):
        """Returns the term, the next element, and how the way ended: 'end', 'no' (refused), or 'inl' / 'inr' of a turn."""
        kind = p[0]
        if kind == 'ret':
            return self.ending(p, els, i)
        if kind == 'seq':
            return self.sequence(p, els, i)
        if kind == 'call':
            return self.call(p, els, i)
        if kind == 'test':
            return self.choice(p, els, i)
        if kind == 'scope':
            return self.scope(p, els, i, top)
        if kind == 'stop':
            return self.stop(p, els, i)
        if kind in ('while', 'loop'):
            return self.loop(p, els, i)
        raise Stuck(f'cannot walk {p}')

    def choice(self, p, els, i):
        """A test of the program, by what decided it in the code: a `match`'s last arm, another of its arms, or a test."""
        if self.ruled_out(p, els, i):
            term, j, how = self.walk(p[3], els, i)
            return law('if_no', f"ne_eqb _ _ ({'grind' if self.fn.rows else 'omega'} arith)", term), j, how
        arms = {'key': self.matched, 'some': self.found, 'none': self.found, 'mode': self.decided}
        if i < len(els) and els[i].kind in arms:
            return arms[els[i].kind](p, els, i)
        j = self.skip(els, i, ('if',))
        name, fact = self.test(els, j)
        term, k, how = self.walk(p[2] if name == 'if_yes' else p[3], els, j + 1)
        return law(name, fact, term), k, how

    def call(self, p, els, i):
        """A call's own step: on one of the two ways on from its `?`, or handed on as it is."""
        i = self.skip(els, i, ('call',))
        if p[1] == 'finish' and els[i].name == 'close_at':
            return self.walk(self.inlined(self.defs['finish'][1]), els, i)
        way = els[i + 1] if i + 1 < len(els) and els[i + 1].kind in ('ok', 'err') else None
        term, no = self.did(way or els[i]), bool(way and way.kind == 'err')
        if p[1] in WRAPS:
            term = law('cut' if no else 'ends', term)
        return term, i + 2 if way else i + 1, 'no' if no else 'end'

    def ruled_out(self, p, els, i):
        """Whether a test is for a kind that a `match` whose last arm the way has come through had an arm for."""
        while i < len(els) and els[i].kind in ('value', 'rest'):
            i += 1
        behind = []
        for e in reversed(els[:i]):
            if e.kind not in ('value', 'rest', 'if'):
                break
            behind += e.keys if e.kind == 'rest' else []
        return self.kind_of(p) in behind

    def kind_of(self, p):
        """The kind that a test of the program is for, if it is for one."""
        m = re.fullmatch(r'eqb \w+ (K-\S+)', p[1])
        return KINDS[m[1]] if m else None

    def matched(self, p, els, i):
        """A test of the ladder that an arm of a `match` decides."""
        e, kind = els[i], self.kind_of(p)
        if e.keys == [kind]:
            term, j, how = self.walk(p[2], els, i + 1)
            return law('if_yes', f'eq-eqb _ _ {e.fact()}', term), j, how
        # another kind, or a class that the kind is not of: both compute
        other = f'not_key {kind} {e.fact()} refl' if kind is not None else f'ap {self.classed(p[1])} {e.fact()}'
        term, j, how = self.walk(p[3], els, i)
        return law('if_no', other, term), j, how

    def found(self, p, els, i):
        """A test of a link or an operator that an arm of its Option decides."""
        e, word = els[i], 'op' if p[1].startswith('is_none') else 'link'
        term, j, how = self.walk(p[3 if e.kind == 'some' else 2], els, i + 1)
        if e.kind == 'none':
            return law('if_yes', law(f'no_{word}', f'{e.term}.is'), term), j, how
        links = [f'{els[i - 1].term}.ensures.some'] if word == 'link' else []
        return law('if_no', law(f'{word}_is', f'{e.term}.is', *links), f'rw {e.term}.is {arg(term)}'), j, how

    def decided(self, p, els, i):
        """A test of a mode that an arm decides: it computes."""
        head = p[1].split()[0]
        if head not in MODES:
            raise Stuck(f'a mode cannot decide {p[1]}')
        read, yes = MODES[head]
        self.classes.add(head)
        term, j, how = self.walk(p[2] if els[i].name == yes else p[3], els, i + 1)
        return law('if_yes' if els[i].name == yes else 'if_no', f'ap {head} (ap {read} {els[i].term}.is)', term), j, how

    def classed(self, cond):
        """A class, as a function of the kind `k`; it is opened, so that the checker computes it."""
        head, *rest = cond.split()
        more = {head}
        while more:
            self.classes |= more
            more = {n for c in more for n in CLASSES[c] if n in CLASSES} - self.classes
        return head if rest == ['k'] else f"(λ (k : ℕ). {' '.join([head] + [r if r == 'k' else '_' for r in rest])})"

    def ending(self, p, els, i):
        how = 'inl' if p[1].startswith('(inl') else 'inr' if p[1].startswith('(inr') else 'end'
        fact = self.words.get({'inr': 'last', 'inl': 'again'}.get(how)) or self.words.get('kept', {}).get(self.goal)
        # what else the code computed on the way here does not matter
        while i < len(els) and els[i].kind in ('value', 'rest', 'look'):
            i += 1
        # another form of the answer, as the words give it
        return law('nothing_as', fact) if fact else 'nothing', i, how

    def sequence(self, p, els, i):
        _, binder, first, rest = p
        if first[0] == 'look':
            return self.look(first, rest, els, i)
        if first[0] == 'ask':
            return self.ask(first, rest, els, i)
        term, j, how = self.walk(first, els, i)
        if how == 'no':
            return law('cut', term), j, 'no'
        more, k, how = self.walk(rest, els, j)
        return law('ends', term) if more == 'nothing' and how == 'end' else law('both', term, more), k, how

    def look(self, p, rest, els, i):
        i = self.skip(els, i, ('look',))
        term, j, how = self.walk(rest, els, i + 1)
        return law({'nth0': 'look', 'glued': 'touch', 'here': 'spot'}[p[1]], f'{els[i].term}.ensures', term), j, how

    def ask(self, p, rest, els, i):
        if p[1] == 2 and els[i].name == AHEAD:
            term, j, how = self.walk(rest, els, i + 1)
            return law('ask_ahead', f'{els[i].term}.ensures', term), j, how
        i = self.skip(els, i, ('look',))
        seen = [f'{els[i].term}.ensures']
        if p[1] == 1:
            term, j, how = self.walk(rest, els, i + 1)
            return law('ask', *seen, term), j, how
        second = self.skip(els, i + 1, ('look',))
        seen.append(f'{els[second].term}.ensures')
        if second + 1 < len(els) and els[second + 1].name == 'from_slice':
            term, j, how = self.walk(rest, els, second + 2)
            return law('ask_second_as', *seen, f'{els[second + 1].term}.ensures.is', term), j, how
        term, j, how = self.walk(rest, els, second + 1)
        return law('ask_glued' if p[1] == 'g' else 'ask_second', *seen, term), j, how

    def scope(self, p, els, i, top):
        i = self.skip(els, i, ('call',))
        way = els[i + 1]
        if way.kind == 'err':
            term, j, how = law('unscoped', f'{way.term}.ensures'), i + 2, 'no'
        else:
            term, j, how = self.walk(p[2], els, i + 2)
            term = law('scoped', f'{way.term}.ensures', term)
        return (term if top else f"{of(term, 'under')} _"), j, how

    def stop(self, p, els, i):
        if p[2] is None:
            i = self.skip(els, i, ('refusal',))
            return law('refuses', f'{els[i].term}.ensures', 'refl'), i + 1, 'no'
        # at a place that was seen before: here, or where the code has kept it
        if i < len(els) and els[i].kind == 'refusal':
            here, refusal = next(e for e in reversed(els) if e.name == 'here'), f'{els[i].term}.ensures'
            return law('halt', f'ap number_of {refusal}.reason', f'{refusal}.place ∙ sym {here.term}.ensures'), i + 1, 'no'
        return law('halt', 'refl', 'refl'), i, 'no'

    def turn(self, p):
        if p[0] == 'while':
            return ('seq', 'b', p[1], ('test', 'b', ('seq', None, p[2], ('ret', '(inl tt)')), ('ret', '(inr tt)')))
        return self.inlined(self.defs[p[1]][1])

    def loop(self, p, els, i):
        i = self.skip(els, i, ('loop',))
        inv = self.under(els[i], '_')
        term, j, how = self.walk(self.turn(p), els, i + 1)
        if how == 'no':
            return law('inv_end', inv, law('last_cut', term)), j, 'no'
        if how == 'inr':
            return law('inv_end', inv, law('last', term)), j, 'end'
        raise Stuck(f'a turn that ends in {how}')

    # ### The goals

    def requires(self, name, els):
        """What a callee asks, where the check does not find it: a mark, an operator, and in a cycle that the measure falls."""
        f = self.known.get(name)
        if not f:
            return None
        parts = [self.asked(a, els) for a in f.asks]
        if name in self.cycle:
            facts = ['arith', 'c.decreases'] + [f'{e.term}.ensures.some.1' for e in els if e.kind == 'ok' and e.name == 'enter']
            parts = [law('omega', tuple_of(facts + [of(k, 'left') for k in self.kept(els)])), tuple_of(parts or ['tt'])]
        return tuple_of(parts) if any(p != 'omega arith' for p in parts) else None

    def asked(self, a, els):
        """One part of what a callee asks."""
        if a.startswith('Marked'):
            return self.marked(els)
        if a.startswith('Next'):
            return self.next_op(els)
        return 'omega arith'

    def answer(self, goal):
        """A goal's answer, or None where the check finds it."""
        self.goal, self.classes = goal, set()
        old, place = self.places.goals[goal]
        if goal in self.words.get('needs', {}):
            return self.words['needs'][goal]
        return self.each(self.elements(place), lambda els: self.answer_at(old, els))

    def each(self, els, answer):
        """An answer behind an arm of several kinds: one for each of them."""
        n = next((n for n, e in enumerate(els) if e.kind == 'key' and len(e.keys) > 1), None)
        if n is None:
            return answer(els)
        name = f'e{n}'
        ways = [self.each(els[:n] + [els[n].as_one(key, name)] + els[n + 1:], answer) for key in els[n].keys]
        if ways[0] is None or name not in ways[0]:
            return ways[0]
        term = ways[-1]
        for k in range(len(ways) - 2, -1, -1):
            term = law('either', els[n].fact() if k == 0 else name, f'λ {name}. {ways[k]}', f'λ {name}. {term}')
        return term

    def answer_at(self, old, els):
        if old.endswith('-requires'):
            return self.requires(old[:-9], els)
        if old == 'returns':
            return self.returns(els)
        if old == 'loop-init':
            return self.with_next(self.standing('inv_start'), els)
        if old == 'loop-smaller':
            return law('burns', self.turn_kept(els), self.words.get('move') or self.move(els))
        if old == 'loop-preserved':
            return self.again(els)
        return None

    def returns(self, els):
        """The contract on one way out. A refusal that `?` hands on is its callee's."""
        scoped = self.tree[0] == 'scope'
        term = self.entry(els) if self.counted() else self.walk(self.tree, els, 1, True)[0]
        if els[-1].kind == 'thrown' and self.fn.reads:
            term, scoped = law('thrown_as', self.fn.reads, f'{els[-1].term}.ensures', f"{of(term, 'under')} m" if scoped else term), False
        elif els[-1].kind == 'thrown':
            term = law('thrown_ran' if scoped else 'thrown', f'{els[-1].term}.ensures', term)
        return term if scoped or self.fn.mark else f'record {{ under = λ m. {term} }}'

    def turn_kept(self, els):
        """What the turn keeps from the loop's start on."""
        steps = self.kept([e for e in els[self.last_loop(els) + 1:] if e.kind == 'ok'])
        term = steps[-1]
        for s in steps[-2::-1]:
            term = law('kept_on', s, term)
        return term

    def again(self, els):
        n = self.last_loop(els)
        term, j, how = self.walk(self.turn(self.find_loop(self.tree)), els, n + 1)
        again = law('inv_again', self.under(els[n], 'm'), term, self.words.get('move') or self.move(els))
        return self.with_next(self.standing(again), els)

    def with_next(self, loop_term, els):
        """A loop over operators keeps that its operator is the next."""
        return f'record {{ loop = {loop_term}; next = {self.next_op(els)} }}' if 'next' in self.words else loop_term

    def next_op(self, els):
        """That an operator is the next: it was looked up, a loop keeps it, or it is asked."""
        e = next(e for e in reversed(els) if e.name == AHEAD or e.kind in ('loop', 'pre') or (e.kind, e.name) == ('ok', 'operand'))
        if e.kind == 'ok':
            return f'{e.term}.ensures.next.is'
        if e.kind == 'pre':
            asked = self.pre(e, 'Next')
            return law('next_in', f"{next(e for e in els if e.kind == 'ok').term}.ensures", asked) if self.counted() else asked
        found = f"{e.term}.{'invariant.next' if e.kind == 'loop' else 'ensures'}"
        some = [x for x in els[els.index(e):] if x.kind == 'some']
        return law(f'rw (← {some[-1].term}.is)', found) if some and e.kind == 'loop' else found

    def find_loop(self, p):
        if p[0] in ('while', 'loop'):
            return p
        for x in p[1:]:
            if isinstance(x, tuple):
                q = self.find_loop(x)
                if q:
                    return q
        return None

    def unfolds(self):
        loop = self.find_loop(self.tree)
        more = [] if not loop else ['while_turn'] if loop[0] == 'while' else [loop[1]]
        names = [self.fn.head] + more + self.opened + (['grammar'] if self.counted() else []) + self.words.get('cuts', [])
        return [n for n in dict.fromkeys(names) if n in UNFOLDABLE | CUT] + sorted(self.classes)

    def invariant(self):
        if 'inv' in self.words:
            return self.words['inv']
        if not self.fn.args and (self.tree[0] == 'while' or self.tree[0] == 'loop' and self.tree[3] == 'tt'):
            return f'Loop {self.fn.head} {self.fn.head} l.initial.p l.p'
        raise Stuck(f'{self.fn.name}: its loop wants the word `inv`')

    # ### A counted rule: its body has one entry less, which is given back

    def counted(self):
        first = self.tree[2] if self.tree[0] == 'seq' else self.tree
        return first[0] == 'call' and first[1] == 'enter'

    def entry(self, els):
        way = next(e for e in els if e.kind in ('ok', 'err'))
        if way.kind == 'err':
            term = law('barred', f'{way.term}.ensures')
            return term if self.tree[0] == 'call' else law('cut', term)
        body = next(e for e in els if e.kind == 'call' and e.name != 'enter')
        left = next(e for e in els if e.kind == 'leave')
        read = {'()': ['λ a. 0', 'λ n. tt', 'λ a. refl', 'refl'], 'bool': ['λ b. cond b 1 0', 'λ n. eqb n 1', 'yes_no', 'refl']}[self.fn.answer] if self.tree[0] == 'seq' else []
        return law('entered_as' if read else 'entered', *read, f'{way.term}.ensures', self.did(body), f'{left.term}.ensures')

    # ### Progress: the first call of a turn comes further, since of what was seen

    def move(self, els):
        turn = els[self.last_loop(els) + 1:]
        steps = [k for k, e in enumerate(turn) if e.kind == 'ok']
        first = turn[steps[0]]
        head, step = self.known[first.name].head, self.did(first, '0')
        looks = [e for e in turn[:steps[0]] if e.kind == 'look']
        tests = [e for e in turn[:steps[0]] if e.kind in ('if', 'key')]
        if head in FURTHER_ANY:
            term = law('goes_on', step, FURTHER_ANY[head])
        else:
            term = law(*self.because(head, step, looks, tests[-1], turn), f'{head}_further')
        for k in steps[1:]:
            term = law('and_on', term, self.did(turn[k], '0'))
        return term

    def because(self, head, step, looks, test, turn):
        """What was seen, as the law of progress asks for it."""
        saw = f'{looks[0].term}.ensures'
        if test.kind == 'key':
            return 'goes_some', step, saw, f'λ z. omega (arith, {test.fact()})'
        if ' == ' in test.test:
            return 'goes_some', step, saw, f'λ z. omega (arith, {test.fact()})'
        value = turn[turn.index(test) - 1]
        fact = f'sym {value.term}.ensures ∙ {test.fact()}'
        if head in FURTHER_SAW:
            return 'goes_saw', step, saw, FURTHER_SAW[head], fact
        if head in FURTHER_GLUED:
            return 'goes_glued', step, saw, f'{looks[1].term}.ensures', FURTHER_GLUED[head], fact
        return 'goes_some', step, saw, law(SOME[value.name], fact)

    def last_loop(self, els):
        return max([k for k, e in enumerate(els) if e.kind == 'loop'], default=len(els) - 1)


# ## Files

def answers(walk):
    """Each goal's answer, with an `unfolding` line where the program is to be seen."""
    out = {}
    for goal, (old, _) in walk.places.goals.items():
        try:
            term = walk.answer(goal)
        except Stuck as e:
            print(f'{walk.fn.name} {goal}: {e}')
            continue
        if term:
            clause = f'-clause-{walk.fn.clause[1:]}' if walk.fn.clause and old == 'returns' else ''
            name, given = walk.places.stem + goal + clause, 't c' if walk.cycle else 'c'
            unfold = f"unfolding {' '.join(walk.unfolds())}\n" if old in ('returns', 'loop-init', 'loop-preserved') and walk.unfolds() else ''
            out[name] = f'pub {name} : goal.{name}\n{unfold}{name} {given} =\n    {term}\n'
    return out


def by_words(places, words):
    """The answers of a function that runs no program: its words give each."""
    out = {}
    for goal, term in words['needs'].items():
        if goal not in places.goals:
            print(f'{places.fn.name}: no goal {goal}')
        unfold = f"unfolding {words['unfolding']}\n" if goal in words.get('unfolds', []) else ''
        out[goal] = f'pub {goal} : goal.{goal}\n{unfold}{goal} c =\n    {term}\n'
    return out


def invariants(walk):
    """A loop's invariant, and the number that falls at each turn."""
    if not walk.places.loop:
        return {}
    name = walk.places.stem + walk.places.loop
    return {f'{word}-{name}': f'abbrev pub {word}-{name} : goal.{word}-{name}\n{word}-{name} l =\n    {term}\n'
            for word, term in (('invariant', walk.invariant()), ('decreases', 'fuel l.p'))}


def measures(fns, record):
    """The number that falls at each call of a member: N for each entry that is left, and the member's rank."""
    rank = ranks(fns)
    top = max(rank.values()) + 1
    name = {f: f"decreases-{record[f]['stem'][:-1]}" for f in rank}
    return {name[f]: f'abbrev pub {name[f]} : goal.{name[f]}\n{name[f]} l = {top} * l.p.now.left + {rank[f]}\n' for f in rank}


def ranks(fns):
    """Above all members that it calls with as many entries left. A counted rule calls its body with one less."""
    names, calls, rank = {f.name for f in fns}, {}, {}
    for f in fns:
        calls[f.name] = set() if '.enter()' in f.body else set(re.findall(r'\b(\w+)\(', f.body)) & names - {f.name}

    def rank_of(name):
        if name not in rank:
            rank[name] = 1 + max([rank_of(n) for n in calls[name]], default=-1)
        return rank[name]
    return {f.name: rank_of(f.name) for f in fns}


def imports(text, words, uses):
    """The imports that a text cites: of a name, the words' own before a law's, and that before the one that the file had."""
    cited = {t.split('.')[0] for t in re.split(r'[\s(){},;]+', text)} - {''}
    lines = LAWS.replace('CLASSES', ', '.join(sorted(CLASSES))).replace('GRAMMAR', ', '.join(sorted(UNFOLDABLE | {'while', 'not_eof'}))).replace('CUTS', ', '.join(sorted(CUT)))
    lines = lines.replace('FURTHER', ', '.join(sorted(n for n in cited if n.endswith('_further'))))
    out = ''
    for line in words + lines.split('\n') + uses:
        module, names = re.fullmatch(r'use (\S+)\.\{(.*)\}', line).groups()
        names = {n.split(' as ')[-1].strip('◌'): n for n in names.split(', ')}
        kept = [n for name, n in names.items() if name in cited]
        cited -= set(names)
        if kept:
            out += f"use {module}.{{{', '.join(kept)}}}\n"
    return out


def standing(path):
    """What a file says of each goal, and its imports."""
    text = open(path).read() if os.path.exists(path) else ''
    found = {m[1]: part.strip('\n') + '\n' for part in text.split('\n\n') for m in [re.search(r'^(?:abbrev )?pub (\S+) :', part, re.M)] if m}
    return found, re.findall(r'^use \S+\.\{.*\}$', text, re.M)


def write(path, goals, found, more):
    """Writes what was found; an asked goal for which nothing was found keeps what the file says of it."""
    there, uses = standing(path)
    text = '\n'.join(found.get(g) or there[g] for g in goals if g in found or g in there)
    if text:
        os.makedirs(os.path.dirname(path), exist_ok=True)
        unit = os.path.dirname(path)[len('crates/'):].replace('/', '.')
        module = f"Rattle.{unit}.{'Goals' if path.endswith('Answers.antt') else 'Given'}"
        open(path, 'w').write(f'{HEAD}{imports(text, more, uses)}use {module} as goal\n\n{text}')


def prove(fns, record, known, defs, words):
    """Writes the files of a function, or of a cycle's members."""
    folder = f"crates/{fns[0].crate}/proofs/{fns[0].unit().replace('.', '/')}"
    cycle = {f.name for f in fns} if fns[0].cycle else set()
    found, loops, goals, more = {}, measures(fns, record) if cycle else {}, [], []
    kept = []
    for f in fns:
        w, places = words.get(f.name, {}), Places(record[f.name], f)
        goals += [places.stem + name for g in places.goals for name in [g] + [f'{g}-clause-{c}' for c in places.clauses.get(g, [])]]
        more += w.get('use', [])
        if w.get('by-words'):
            found.update(by_words(places, w))
            continue
        if w.get('by-hand'):
            kept += [f'{word}-{places.stem}{places.loop}' for word in ('invariant', 'decreases') if places.loop]
            continue
        walk = Walk(f, places, known, defs, w, cycle)
        found.update(answers(walk))
        loops.update(invariants(walk))
    write(f'{folder}/Answers.antt', goals, found, more)
    if loops:
        write(f'{folder}/Invariants.antt', list(loops) + kept, loops, more)


def places_of(crate):
    """What the check lists of each function: its places, steps and goals. The crates below are to be proved, this one need not be."""
    with tempfile.TemporaryDirectory() as folder:
        said = subprocess.run(['rt', 'check', '--generated', folder, '--old-names'], cwd=f'crates/{crate}', stdout=subprocess.PIPE, stderr=subprocess.STDOUT, text=True).stdout
        if not os.path.exists(f'{folder}/names.json'):
            sys.exit(said)
        listed = json.load(open(f'{folder}/names.json'))
    # a function's key ends in F.Lts, a cycle's member's in +NAME.Lts-F, or Lts-MODULE-F
    return {key.split('.Lts-')[1].split('-')[-1] if '.Lts-' in key else key.split('.')[-2]: record for key, record in listed.items() if 'places' in record}


def main():
    crate, only = sys.argv[1], sys.argv[2:]
    known = {name: f for c in CRATES for name, f in contracts(c).items()}
    defs = {**programs.read(GRAMMAR), **programs.read(CUTS)}
    table = {}
    if os.path.exists(f'tools/words/{crate}.py'):
        exec(open(f'tools/words/{crate}.py').read(), table)
    words = table.get('WORDS', {})
    record, units = places_of(crate), {}
    for name in sorted(contracts(crate)):
        f, w = known[name], words.get(name, {})
        if f.rule or w.get('by-words'):
            units.setdefault(f.unit(), []).append(f)
    for fns in units.values():
        by_hand = all(words.get(f.name, {}).get('by-hand') for f in fns)
        if not by_hand and (not only or set(only) & {f.name for f in fns}):
            prove(fns, record, known, defs, words)


if __name__ == '__main__':
    main()
