# What tools/walk.py cannot read off the code and the program of a rule in crates/pieces.
WORDS = {
    # its level is bounded besides
    'stream': {'by-hand': True},
    'modifiers': {
        'inv': 'Loop (repeat modifiers_turn (l.is_const, l.has_mods)) (repeat modifiers_turn (false, false)) l.initial.p l.p',
    },
}
