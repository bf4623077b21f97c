"""Random words of a font's own characters, with many pairs that have a rule.

The letters ^ and | stand in no word: in what TeX shows of a ligature they would be read as ^^ and as a boundary's bar."""
from typing import NamedTuple

from tfm import LEFT_BOUNDARY

UNREADABLE = {ord('^'), ord('|')}
LONGEST = 10
WAYS = {'with both boundaries': (True, True), 'without the left boundary': (False, True), 'without the right boundary': (True, False)}


class Word(NamedTuple):
    """Letters to set, and whether the left and the right boundary are read."""
    letters: list
    left: bool
    right: bool

    def way(self):
        return next(name for name, way in WAYS.items() if way == (self.left, self.right))


class Letters:
    """A font's letters by the places where a rule, or a redirect, waits for them."""

    def __init__(self, font):
        self.all = [c for c in font.characters if c not in UNREADABLE]
        known = set(self.all)
        rights = {left: font.rights(left) for left in font.lefts()}
        self.after = {left: sorted(rights[left] & known) for left in rights}
        self.busy = sorted(known & (set(rights) | set().union(*rights.values()))) if rights else []
        self.last = sorted(c for c in known if font.boundary in rights.get(c, ()))

    def any(self, rng):
        """A letter, rather one that has a rule or stands in one."""
        return rng.choice(self.busy if self.busy and rng.random() < 0.7 else self.all)

    def following(self, rng, left):
        """A letter after this left, rather one that the left has a rule for."""
        rights = self.after.get(left)
        return rng.choice(rights) if rights and rng.random() < 0.7 else self.any(rng)


def random_letters(rng, letters):
    """1 to LONGEST random letters; the last has often a rule for the right boundary."""
    left, out = LEFT_BOUNDARY, []
    for _ in range(rng.randint(1, LONGEST)):
        left = letters.following(rng, left)
        out.append(left)
    if letters.last and rng.random() < 0.5:
        out[-1] = rng.choice(letters.last)
    return out


def words(rng, font, count):
    """So many random words, each in every way, or none where the font has no letter to show."""
    letters = Letters(font)
    chosen = [random_letters(rng, letters) for _ in range(count)] if letters.all else []
    return [Word(word, left, right) for word in chosen for left, right in WAYS.values()]
