"""Random programs, and the property lists that have them (PLtoTF 9 to 13, 94 to 104).

A program is a list of steps (next, right, kind, operand) in the library's numbers, its kerns being values in millionths of the design size, with the
entries of characters and of the left boundary. Every chain ends with STOP inside the list, so that none runs into the words that pltotf adds."""
from dataclasses import dataclass, replace

from tfm import KERN_VALUE, LIGATURE, Font

LIGATURE_NAMES = {0: 'LIG', 1: 'LIG/', 2: '/LIG', 3: '/LIG/', 5: 'LIG/>', 6: '/LIG>', 7: '/LIG/>', 11: '/LIG/>>'}
ALL_OPS, BOTH_Z_OPS = list(LIGATURE_NAMES), [3]
PLAIN_LETTERS = [c for c in range(33, 127) if chr(c) not in '^|']
CONTROL_CODES = list(range(0, 33)) + [127]
HIGH_CODES = list(range(128, 256))


@dataclass
class Program:
    """What a property list says: steps, entries by character, the left boundary's entry, the boundary character, the size and the characters."""
    steps: list
    entries: dict
    left_entry: int
    boundary: int
    design_size: str
    characters: list

    def font(self):
        """The same for the library, without a TFM file between; kerns keep only their place."""
        return Font([(n, r, k, 0 if k == KERN_VALUE else o) for n, r, k, o in self.steps], [], self.entries, self.boundary, self.left_entry,
                    10 << 20, self.characters)


def alphabet(rng, least, most):
    """So many codes: mostly visible letters, in one font out of three also codes that TeX shows with ^^."""
    codes = PLAIN_LETTERS + (CONTROL_CODES + HIGH_CODES if rng.random() < 0.33 else [])
    return rng.sample(codes, rng.randint(least, most))


def design_size(rng):
    """A design size in points as it stands in a property list."""
    return rng.choice(['10.0', '10.0', '7.5', '12.34567', '127.99999', '128.0', '1.0', f'{rng.uniform(1, 200):.5f}', f'{rng.uniform(200, 2000):.5f}'])


def kern(rng, size):
    """A kern in millionths of the design size: small ones as in real fonts, the least, and large ones where the size lets TeX add them up."""
    most = 15_999_999 if float(size) < 100 else 900_000
    return rng.choice([rng.randint(-300_000, 300_000), rng.randint(-3, 3), rng.randint(-most, most)])


def step(rng, rights, results, size, kern_share, ops):
    """A random kern or ligature with one of these op bytes, without its next."""
    if rng.random() < kern_share:
        return (rng.choice(rights), KERN_VALUE, kern(rng, size))
    return (rng.choice(rights), LIGATURE, 256 * rng.choice(ops) + rng.choice(results))


def next_of(rng, index, count):
    """A random next that stays inside a list of so many steps: the following step, STOP, or a SKIP."""
    room = count - 2 - index
    if room < 0 or rng.random() < 0.25:
        return -1
    return rng.randint(1, min(room, 4)) if room > 0 and rng.random() < 0.2 else 0


def program(rng, letters, count, kern_share, label_share, ops):
    """A random program over these letters with these op bytes, with both boundaries."""
    size = design_size(rng)
    boundary = rng.choice(letters) if rng.random() < 0.6 else rng.randrange(256)
    rights = letters + [boundary]
    steps = [(next_of(rng, k, count),) + step(rng, rights, letters, size, kern_share, ops) for k in range(count)]
    entries = {c: rng.randrange(count) for c in sorted(letters) if rng.random() < label_share}
    return Program(steps, entries, rng.randrange(count), boundary, size, sorted(letters))


def word_program(rng):
    """A program to set words with; one of twenty is so long that pltotf needs redirects."""
    if rng.random() < 0.05:
        return program(rng, alphabet(rng, 12, 24), rng.randint(257, 400), 0.7, 0.8, ALL_OPS)
    return program(rng, alphabet(rng, 2, 8), rng.randint(1, 24), rng.choice([0.2, 0.4, 0.6]), 0.75, ALL_OPS)


def loop_program(rng):
    """A program of few letters and many ligatures, of which a good share loops; one of four has /LIG/ alone: its pairs wait for two in turn."""
    if rng.random() < 0.25:
        return program(rng, alphabet(rng, 2, 3), rng.randint(2, 6), 0.15, 0.8, BOTH_Z_OPS)
    return program(rng, alphabet(rng, 2, 5), rng.randint(1, 8), 0.15, 0.8, ALL_OPS)


def octal(code):
    """A character code as a property list has it."""
    return f'O {code:o}'


def step_lines(step_):
    """A step, and the STOP or SKIP after it (PLtoTF 99 to 102)."""
    following, right, kind, operand = step_
    if kind == KERN_VALUE:
        lines = [f'(KRN {octal(right)} R {operand / 1e6:.6f})']
    else:
        lines = [f'({LIGATURE_NAMES[operand // 256]} {octal(right)} {octal(operand % 256)})']
    if following < 0:
        lines.append('(STOP)')
    elif following > 0:
        lines.append(f'(SKIP D {following})')
    return lines


def labels(program_, index):
    """The labels in front of a step (PLtoTF 97)."""
    lines = [f'(LABEL {octal(c)})' for c, at in sorted(program_.entries.items()) if at == index]
    return lines + (['(LABEL BOUNDARYCHAR)'] if program_.left_entry == index else [])


def property_list(program_):
    """The property list of a program."""
    lines = [f'(DESIGNSIZE R {program_.design_size})', f'(BOUNDARYCHAR {octal(program_.boundary)})', '(LIGTABLE']
    for index, step_ in enumerate(program_.steps):
        lines += ['   ' + line for line in labels(program_, index) + step_lines(step_)]
    lines.append('   )')
    lines += [f'(CHARACTER {octal(c)} (CHARWD R 0.5))' for c in program_.characters]
    return '\n'.join(lines) + '\n'


def without_step(program_, index):
    """The program without one of its steps: what stood at or after it moves up, and what started past the end is gone."""
    def moved(at):
        return at - 1 if at > index else at

    steps = []
    for k, (following, *rest) in enumerate(program_.steps):
        if k < index < k + 1 + following:
            following -= 1
        steps.append((following, *rest))
    del steps[index]
    if steps:
        steps[-1] = (-1,) + steps[-1][1:]
    entries = {c: moved(at) for c, at in program_.entries.items() if moved(at) < len(steps)}
    left_entry = moved(program_.left_entry)
    return replace(program_, steps=steps, entries=entries, left_entry=left_entry if left_entry < len(steps) else -1)


def without_entry(program_, character):
    """The program without a character's label."""
    return replace(program_, entries={c: at for c, at in program_.entries.items() if c != character})
