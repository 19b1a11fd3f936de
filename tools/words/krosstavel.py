# What tools/walk.py cannot read off the code and the program of a rule in crates/krosstavel.
START = 'use Rattle.krosstavel.specs.Starting.{same_step, some_is_some}'
LOOP = 'Loop ({0}) ({0}) l.initial.p l.p'

WORDS = {
    'root_rule': {'inv': LOOP.format('while not_eof stmt'), 'use': [START]},
    'exprs_rule': {
        'inv': LOOP.format('while not_eof (separated l.separator)'),
        # the code's kind is what the separator is treated as
        'wrap': {'bump_while': 'same_step (ap bump_while c.treated-k.ensures) {}'},
        'use': [START],
    },
    'format_rule': {'inv': LOOP.format('while not_eof bump'), 'use': [START]},
    # these run no program of their own: the choice of the rule, and the calls
    'is_valid': {'by-hand': True},
    'rule': {'by-hand': True},
}
