#!/usr/bin/env python3
"""respell.py: brings the repository's own antt names to one spelling, words in snake case, in the definitions, the lemmas, the clauses, the edits and the pages.

Run once, at the top, right after the spelling of the language was turned. A name is turned where it is declared in specs/ or in a file of lemmas and begins in
lower case: `isTrivia` and `expr-binary` become `is_trivia` and `expr_binary`. Names of kinds (`K-ident`), types, modules, and all names of src/ stay.
Five pairs would fall together; APART says what becomes of the one of each. And the definition's choice between programs, `if b then p else q`, is written
`if b then p otherwise q`: the library has an operator of the old name, a choice between values, and no other may be called so.
"""
import os
import re
import sys

# a test on a kind that has been seen, beside the program that looks at the next one: as the Rust names `kind_is_callable`
APART = {
    'isPat': 'kind_is_pat',
    'isExprWith': 'kind_is_expr_with',
    'isStmtRecovering': 'kind_is_stmt_recovering',
    'is-token': 'assigned_is_token',
    'is-not': 'is_not_tokens',
}
DECLARED = re.compile(r'^ *(?:(?:abbrev|pub|unfoldable|data|record|opaque)\s+)*([a-z][^\s(){}.;,@"«»:]*)(?:\s+(?:\{[^{}]*\}|\([^()]*\)|[^\s:(){}]+))*?\s+:(?:\s|$)')
NAME = re.compile(r'[^\s(){}.;,@"«»`]+')
CLAUSE = re.compile(r'(?:requires|ensures)\s*\*?\s*(?:\w+\s*)?\{')
GHOST_USE = re.compile(r'ghost\s+use\b[^;]*;')
SPAN = re.compile(r'`[^`\n]+`')
RENAMED = re.compile(r'(?<=[{\s])(\S+) as \1(?=[,}])')


def files(*endings):
    for top in ('crates', 'docs', 'tools', 'README.md', 'bindings', 'oracle'):
        if os.path.isfile(top):
            yield top
        for folder, dirs, names in os.walk(top):
            dirs[:] = sorted(d for d in dirs if d not in ('out', 'target'))
            yield from (os.path.join(folder, n) for n in sorted(names) if n.endswith(endings))


def snake(name):
    return re.sub(r'(?<=[a-z0-9])[A-Z]+', lambda m: '_' + m[0].lower(), name).replace('-', '_').replace('′', "'")


def table():
    names, given = set(), set()
    for path in files('.antt'):
        if path.endswith(('Proof.antt', 'Answers.antt', 'Invariants.antt')):
            continue
        for line in open(path):
            m = DECLARED.match(line)
            if m and not line.lstrip().startswith('--'):
                names.add(m[1])
    for path in files('.rt', '.antt'):
        # a name given by `as`: it may become the name that it was given to, and then goes
        for m in re.finditer(r'[\s{](?:\S+) as ([a-z][^\s,}]*)(?=[,}])', open(path).read()):
            given.add(m[1])
    apart(names)
    return {n: APART.get(n, snake(n)) for n in names | given if n in APART or snake(n) != n}


def apart(names):
    """Stops where two declared names would become one, or one would become another that is there."""
    taken = {}
    for n in sorted(names):
        if taken.setdefault(APART.get(n, snake(n)), n) != n:
            sys.exit(f'{n} and {taken[APART.get(n, snake(n))]} would fall together')


def turned(text, names):
    return RENAMED.sub(r'\1', NAME.sub(lambda m: names.get(m[0], m[0]), text))


def in_spans(text, names):
    return SPAN.sub(lambda m: turned(m[0], names), text)


def antt(text, names):
    out = []
    for line in text.split('\n'):
        code, dash, comment = line.partition('--') if line.lstrip().startswith('--') else (line, '', '')
        out.append(turned(code, names) + dash + in_spans(comment, names))
    return '\n'.join(out)


# a file that has the definition's choice between programs, by import or as its own
CHOICE = re.compile(r'^use Rattle\.definition\.specs\.Prog\.\{[^}]*if◌then◌else◌|^abbrev pub if◌then◌else◌', re.M)
ELSE = re.compile(r"(?<![\w'-])else(?![\w'-])")


def chosen(line):
    """A line of antt with the choice under its new name; a comment stays."""
    if line.startswith('--'):
        return line
    code, dash, comment = line.partition(' --')
    # a variable of one rule had the new word
    code = re.sub(r"(?<![\w'-])otherwise(?![\w'-])", 'alone', code)
    return ELSE.sub('otherwise', code.replace('if◌then◌else◌', 'if◌then◌otherwise◌')) + dash + comment


def choices():
    """Turns the choice in each file that has it, and in the edits of such files."""
    ours = {p for p in files('.antt') if p.endswith('.antt') and CHOICE.search(open(p).read())}
    for path in sorted(ours) + list(files('.edit')):
        if not path.endswith(('.antt', '.edit')):
            continue
        old, of, out = open(path).read(), None, []
        for line in old.split('\n'):
            if line.startswith('file: '):
                of = os.path.join(os.path.dirname(os.path.dirname(path)), line[6:].strip())
            out.append(chosen(line) if path in ours or of in ours and line.startswith(('old:', 'new:')) else line)
        if '\n'.join(out) != old:
            open(path, 'w').write('\n'.join(out))


def block_end(text, at):
    depth = 1
    while depth:
        depth += {'{': 1, '}': -1}.get(text[at], 0)
        at += 1
    return at


def rattle(text, names):
    text = GHOST_USE.sub(lambda m: turned(m[0], names), text)
    out, at = '', 0
    for m in CLAUSE.finditer(text):
        if m.start() < at or text.rfind('//', text.rfind('\n', 0, m.start()) + 1, m.start()) >= 0:
            continue
        end = block_end(text, m.end())
        out += text[at:m.end()] + turned(text[m.end():end], names)
        at = end
    text = out + text[at:]
    return '\n'.join(in_spans(l, names) if l.lstrip().startswith('//') else l for l in text.split('\n'))


def edit(text, names):
    return '\n'.join(turned(l, names) if l.startswith(('old:', 'new:')) else in_spans(l, names) for l in text.split('\n'))


def page(text, names):
    return in_spans(text, names)


def main():
    names = table()
    for endings, how in (('.antt', antt), ('.rt', rattle), ('.edit', edit), ('.md', page)):
        for path in files(endings):
            if path.endswith(endings) and os.path.basename(path) not in ('NOTICE',):
                old = open(path).read()
                new = how(old, names)
                if new != old:
                    open(path, 'w').write(new)
    choices()
    print(len(names), 'names')
    for a, b in sorted(names.items()):
        print(a, b)


main()
