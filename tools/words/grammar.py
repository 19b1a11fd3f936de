# What tools/walk.py cannot read off the code and the program of a rule in crates/grammar.
LAWS = 'use Rattle.grammar.specs.Loops.{Binding, Tightening, operator_goes, nest_goes, chain_goes}'
LOOKED = 'use Rattle.grammar.specs.Looked.{ask_ahead, next_in, some_op, thrown_as, link_is, no_link, op_is, no_op, link_of, ahead}'
IDLE = 'use Rattle.grammar.specs.Idle.{looked_for, idle_op}'
OPS = 'use Rattle.kinds.specs.Ops.{op_of, next_of}'
MODES = 'use Rattle.kinds.specs.Modes.{brace_of, range_of, cx_of}'

WORDS = {
    # no step of the tape: it tells whether operators are looked for
    'operators_next': {'by-hand': True},
    # the long rules, as they are cut
    'expr_primary': {'as': 'primary_whole', 'cuts': ['primary_sign', 'primary_word', 'primary_last']},
    'outer_expr_with_text': {'as': 'outer_whole', 'cuts': ['outer_chain', 'outer_rest', 'outer_op', 'outer_assign']},
    'stmt_text': {'as': 'stmt_whole', 'cuts': ['stmt_outer', 'stmt_inner', 'stmt_kind']},
    'tuple_items': {'inv': 'Loop (repeat tuple_turn l.is_tuple) (repeat tuple_turn false) l.initial.p l.p'},
    # with no operator next, the program would find none, and the code does not ask
    'outer_op': {
        'needs': {
            'returns-then-operators_next': 'if_yes (looked_for _ _ (sym c.operators_next.ensures ∙ c.if-operators_next.true)) c.outer_binary.ensures',
            'returns': 'idle_op _ _ _ _ (sym c.operators_next.ensures ∙ c.if-operators_next.false)',
        },
        'use': [IDLE],
    },
    'outer_binary': {'use': [LOOKED]},
    'expr_binary': {'use': [LOOKED]},
    # the code answers an Option where the definition has 0
    'field_link': {},
    'chain_link': {'use': [LOOKED]},
    'chain_step': {'use': [LOOKED]},
    # the kind of the last link and whether there is one go round
    'expr_chain': {
        'inv': 'Loop (repeat chain_turn (l.last, l.any)) (repeat chain_turn (l.kind, false)) l.initial.p l.p',
        'move': 'chain_goes _ (c.in_ok-link.ensures.ran.under 0) (link_is c.in-Some.is c.in_ok-link.ensures.some)',
        'use': [LAWS, LOOKED],
    },
    # the next operator goes round
    'expr_binary_text': {
        'inv': 'Binding l.least (brace_of l.brace) (cx_of l.cx) l.initial.ahead l.ahead l.any l.initial.p l.p',
        'next': True,
        'move': 'and_on (operator_goes c.in-Some.is (c.in_ok-operator.ensures.under 0) c.loop-ahead.invariant.next) (c.in_ok-ahead.ensures.ran.under 0)',
        'use': [LAWS, LOOKED, OPS, MODES],
    },
    'operand': {
        'inv': 'Tightening l.c l.op (brace_of l.brace) (cx_of l.cx) l.place l.initial.ahead l.ahead l.initial.p l.p',
        'next': True,
        # its turns close over the operand's mark
        'at': True,
        'move': 'nest_goes _ c.args.op _ _ c.in-Some.is c.in_ok-nest.ensures c.loop-ahead.invariant.next (sym c.is_tighter.ensures ∙ c.if-is_tighter.true)',
        'use': [LAWS, LOOKED, OPS, MODES],
    },
    'nest': {'use': [LOOKED]},
}
