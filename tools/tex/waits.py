"""What a pair waits for, worked out from TFtoPL 89 to 95 alone: the pair that its value is asked of next."""
from tfm import LIGATURE

LEFT_Z, RIGHT_Z, BOTH_Z, SIMPLE = 'left_z', 'right_z', 'both_z', 'simple'
CLASSES = {1: LEFT_Z, 7: LEFT_Z, 2: RIGHT_Z, 3: BOTH_Z}


def classes(font):
    """Of each pair that has a rule its class and its z (TFtoPL 93, PLtoTF 122)."""
    found = {}
    for left in font.lefts():
        for right, (_, _, kind, operand) in font.rules(left).items():
            op, z = (operand // 256, operand % 256) if kind == LIGATURE else (5, right)
            found[left, right] = (CLASSES.get(op, SIMPLE), right if op in (5, 11) else z)
    return found


def waited(pair, rule, values):
    """The pair that this one's value is asked of next, given the values known so far; None where it has a value by itself."""
    (left, right), (kind, z) = pair, rule
    if kind == SIMPLE:
        return None
    if kind == LEFT_Z:
        return z, right
    first = (left, z)
    if kind == RIGHT_Z or first not in values:
        return first
    return values[first], right


class Values(dict):
    """The values of pairs: a pair without a rule has its right as its value, and one with a rule has what was found."""

    def __init__(self, rules):
        super().__init__()
        self.rules = rules

    def __contains__(self, pair):
        return pair not in self.rules or super().__contains__(pair)

    def __missing__(self, pair):
        return pair[1]


def settle(rules):
    """The values of all pairs that have one."""
    values, changed = Values(rules), True
    while changed:
        changed = False
        for pair, rule in rules.items():
            if pair in values:
                continue
            on = waited(pair, rule, values)
            if on is None or on in values:
                values[pair] = rule[1] if on is None else values[on]
                changed = True
    return values


def has_loop(font):
    """Is there a pair without a value?"""
    rules = classes(font)
    values = settle(rules)
    return any(pair not in values for pair in rules)


def reaches(font, pair, listed):
    """Does this pair wait, by way of others or not, for a pair of the list?"""
    rules = classes(font)
    values = settle(rules)
    seen = set()
    while pair not in values and pair not in seen:
        seen.add(pair)
        pair = waited(pair, rules[pair], values)
        if pair in listed:
            return True
    return False
