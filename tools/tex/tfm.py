"""A font's program, as TeX gets it from a TFM file (TeX 539 to 545, 565 to 576), in the numbers that the library takes.

A redirect that a character's entry meets first is followed, as TeX 1039 does; any other stays on its chain, where both pass it over. The boundary
character and the left entry are taken from the first and the last instruction, as TeX 573 does. `stored` has the font as it stands in the file instead, untested and with its entries packed: what
`ligkern_deserialize` is to give."""
import struct
from dataclasses import dataclass

KERN_VALUE, KERN_INDEX, LIGATURE, REDIRECT = range(4)
LEFT_BOUNDARY = -1
NO_LEFT_ENTRY = -1


class BadFile(Exception):
    """The file is no TFM file that TeX would take."""


@dataclass
class Font:
    """What the library is given, and the characters that exist. Instructions are (next, right, kind, operand)."""
    instructions: list
    kerns: list
    entries: dict
    boundary: int
    left_entry: int
    design_size: int
    characters: list
    size: int = 0
    magnification: int = 0

    def start(self, left):
        """The entry of a left, the boundary being -1, or None."""
        if left == LEFT_BOUNDARY:
            return self.left_entry if self.left_entry != NO_LEFT_ENTRY else None
        return self.entries.get(left)

    def chain(self, left):
        """The indices of the chain from the left's entry."""
        at = self.start(left)
        while at is not None and at < len(self.instructions):
            yield at
            skip = self.instructions[at][0]
            at = None if skip < 0 else at + 1 + skip

    def rules(self, left):
        """The rule of each right: the first instruction for it on the chain of the left that is no redirect."""
        found = {}
        for at in self.chain(left):
            if not self.is_redirect(at):
                found.setdefault(self.instructions[at][1], self.instructions[at])
        return found

    def rights(self, left):
        """The rights that the chain of the left names, those of redirects too."""
        return {self.instructions[at][1] for at in self.chain(left)}

    def lefts(self):
        """The lefts that have a chain, the boundary last."""
        return sorted(self.entries) + ([LEFT_BOUNDARY] if self.left_entry != NO_LEFT_ENTRY else [])

    def is_redirect(self, at):
        return self.instructions[at][2] == REDIRECT

    def redirects_on_chains(self):
        """The redirects that chains meet, which TeX and the library pass over (TeX 1039)."""
        return [self.instructions[at] for left in self.lefts() for at in self.chain(left) if self.is_redirect(at)]

    def has_redirect_on_chain(self):
        return bool(self.redirects_on_chains())

    def has_redirect_for_a_right(self):
        """Does a chain meet a redirect for the right of a pair that a word may have?"""
        rights = set(self.characters) | {self.boundary}
        return any(right in rights for _, right, _, _ in self.redirects_on_chains())


@dataclass
class Stored:
    """A font as it stands in a file. Instructions are (next, right, kind, operand), entries (character, remainder) by ascending character."""
    instructions: list
    kerns: list
    entries: list
    boundary: int
    left_entry: int

    def without_redirects(self, unpacked):
        """The font with the entries that `unpacked` has for its own, and without the redirects in front and the one that holds the left entry. None
        where a redirect stays, or an entry leads to one that goes."""
        first = next((k for k, step in enumerate(self.instructions) if step[2] != REDIRECT), len(self.instructions))
        last = max(first, len(self.instructions) - (self.left_entry != NO_LEFT_ENTRY))
        steps, starts = self.instructions[first:last], [at - first for at in unpacked]
        left_entry = self.left_entry if self.left_entry == NO_LEFT_ENTRY else self.left_entry - first
        if any(step[2] == REDIRECT for step in steps) or min(starts, default=0) < 0 or left_entry < NO_LEFT_ENTRY:
            return None
        return Font(steps, self.kerns, {c: at for (c, _), at in zip(self.entries, starts)}, self.boundary, left_entry, 0, [])


def instruction(word):
    """An instruction of four bytes in the library's numbers (TeX 545)."""
    skip, right, op, rest = word
    if skip > 128:
        return (-1, right, REDIRECT, 256 * op + rest)
    following = skip if skip < 128 else -1
    if op >= 128:
        return (following, right, KERN_INDEX, 256 * (op - 128) + rest)
    return (following, right, LIGATURE, 256 * op + rest)


def lengths(data):
    """The twelve lengths, lf to np; a byte past the end is 0 (TeX 540)."""
    return struct.unpack('>12H', data[:24].ljust(24, b'\0'))


def sections(data):
    """The sections of a file by their first letters, as bytes (TeX 540 and 541)."""
    _, lh, bc, ec, *rest = lengths(data)
    names = ['lengths', 'lh', 'characters', 'nw', 'nh', 'nd', 'ni', 'nl', 'nk', 'ne', 'np']
    found, at = {}, 0
    for name, count in zip(names, [6, lh, ec - bc + 1, *rest]):
        found[name] = data[4 * at:4 * (at + count)]
        at += count
    return found


def program_place(data):
    """Where the instructions of a file begin, in words, and how many there are."""
    _, lh, bc, ec, nw, nh, nd, ni, nl, *_ = lengths(data)
    return 6 + lh + ec - bc + 1 + nw + nh + nd + ni, nl


def words_of(section):
    return [tuple(section[k:k + 4]) for k in range(0, len(section), 4)]


def kerns_of(section):
    return list(struct.unpack(f'>{len(section) // 4}i', section))


def refusal(data):
    """17 where the lengths break TeX 540, or the file is not lf words long, and 0."""
    lf, lh, bc, ec, *rest = lengths(data)
    fits = bc <= ec + 1 and ec <= 255 and lf == 6 + lh + ec - bc + 1 + sum(rest)
    return 0 if max(lengths(data)) <= 32767 and fits and len(data) == 4 * lf else 17


def stored(data):
    """The font as it stands in a file that is not refused."""
    found = sections(data)
    words, first = words_of(found['nl']), lengths(data)[2]
    entries = [(first + k, word[3]) for k, word in enumerate(words_of(found['characters'])) if word[0] != 0 and word[2] % 4 == 1]
    boundary = words[0][1] if words and words[0][0] == 255 else -1
    left_entry = 256 * words[-1][2] + words[-1][3] if words and words[-1][0] == 255 else NO_LEFT_ENTRY
    return Stored([instruction(word) for word in words], kerns_of(found['nk']), entries, boundary, left_entry)


def parts(data):
    """The parts of a file: bc, the header, the character words, the lig/kern words and the kerns (TeX 540 and 565)."""
    lf, lh, bc = lengths(data)[:3]
    if len(data) < 24 or refusal(data[:4 * lf]) != 0 or lh < 2:
        raise BadFile('its lengths do not add up')
    found = sections(data)
    return bc, words_of(found['lh']), words_of(found['characters']), words_of(found['nl']), kerns_of(found['nk'])


def boundaries(words):
    """The boundary character and the left entry (TeX 573 and 576)."""
    boundary, left_entry = -1, NO_LEFT_ENTRY
    if words and words[0][0] == 255:
        boundary = words[0][1]
    if words and words[-1][0] == 255 and 256 * words[-1][2] + words[-1][3] < len(words):
        left_entry = 256 * words[-1][2] + words[-1][3]
    return boundary, left_entry


def entry(words, start):
    """The entry that a character's remainder stands for (TeX 1039)."""
    if start < len(words) and words[start][0] > 128:
        return 256 * words[start][2] + words[start][3]
    return start


def read(path):
    """The font of a TFM file."""
    with open(path, 'rb') as file:
        bc, header, info, words, kerns = parts(file.read())
    existing = {bc + k: word for k, word in enumerate(info) if word[0] != 0}
    entries = {c: entry(words, word[3]) for c, word in existing.items() if word[2] % 4 == 1}
    boundary, left_entry = boundaries(words)
    design_size = int.from_bytes(bytes(header[1]), 'big', signed=True)
    return Font([instruction(word) for word in words], kerns, entries, boundary, left_entry, design_size, sorted(existing))
