"""Fonts with their words set by TeX and by the library, and the two compared: characters, kerns, ligatures, what they are made of and their bars.

Both answers are compared as the lines in which TeX shows a box. Codes, lengths and bars can be read back from such a line, but for one case: a
ligature made of nothing shows one bar for either boundary. It is counted; where one boundary alone is read, the bar must be that one's."""
import os
import zlib
from dataclasses import dataclass, replace

import boxes
import setter
import tfm


@dataclass
class Subject:
    """A font in a folder, under a name of its own, with words. Origin is its program, or the path of a file."""
    name: str
    font: tfm.Font
    words: list
    origin: object


@dataclass
class Difference:
    """A word, or a font (word None), of which the two say different things."""
    subject: Subject
    word: object
    tex: list
    library: list

    def size(self):
        return (len(self.subject.font.instructions), len(self.word.letters) if self.word else 0)


def at_size(font, name, counts):
    """A fifth of the fonts is loaded at a size, and a fifth scaled, by their names; what TeX would not take is left as it is."""
    chance, z = zlib.crc32(name.encode()), font.design_size // 16
    size, magnification = 1 + chance // 5 % (2 * z + 1), 1 + chance // 5 % 2000
    if chance % 5 == 0 and size < 2 ** 27:
        counts['fonts at a size'] += 1
        return replace(font, size=size)
    if chance % 5 == 1 and 0 < z * magnification // 1000 < 2 ** 27:
        counts['fonts scaled'] += 1
        return replace(font, magnification=magnification)
    return font


def loaded(subject):
    """What TeX loads: the font's name, and its size."""
    font = subject.font
    return subject.name + (f' at {font.size}sp' if font.size else f' scaled {font.magnification}' if font.magnification else '')


def read(path, counts):
    """The font of a file. Those of which a chain meets a redirect are counted."""
    font = tfm.read(path)
    counts['fonts with a redirect on a chain'] += font.has_redirect_on_chain()
    counts['fonts with a redirect on a chain, for a right of a pair'] += font.has_redirect_for_a_right()
    return at_size(font, os.path.basename(path), counts)


def font_difference(subject, answer, shown):
    """Whether the two part over the font as a whole: TeX took it, and so it has no loop and the library takes it."""
    if answer.refusal == 0 and not answer.loops and not shown.complaints and len(shown.boxes) == len(subject.words):
        return None
    said = [f'the font taken, {len(shown.boxes)} boxes shown of {len(subject.words)}'] + shown.complaints
    return Difference(subject, None, said, [f'refusal {answer.refusal}', f'loops {answer.loops}'])


def count_items(counts, word, items):
    counts['items'] += len(items)
    counts['kerns'] += sum(item[0] == setter.KERN for item in items)
    ligatures = [item for item in items if item[0] == setter.LIGATURE]
    counts['ligatures'] += len(ligatures)
    counts['ligatures with a left bar'] += sum(item[4] for item in ligatures)
    counts['ligatures with a right bar'] += sum(item[5] for item in ligatures)
    counts['ligatures made of nothing'] += sum(item[3] == 0 for item in ligatures)
    one_bar = 'one bar, of either boundary' if word.left and word.right else 'one bar, of the only boundary read'
    counts[f'ligatures made of nothing, {one_bar}'] += sum(map(setter.is_one_bar, ligatures))


def compare_words(subject, answer, shown, counts):
    """The words of a font that both set differently."""
    found = []
    for word, (refusal, items), lines in zip(subject.words, answer.words, shown.boxes):
        counts[f'words {word.way()}'] += 1
        count_items(counts, word, items)
        ours = setter.shown(items, word) if refusal == 0 else [f'refusal {refusal}']
        if ours != lines:
            found.append(Difference(subject, word, lines, ours))
    return found


def drop_long_words(subjects, answers, counts):
    """Leaves out the words that the library sets as more items than set.c lends room for."""
    for subject, answer in zip(subjects, answers):
        keep = [refusal != setter.TOO_SHORT for refusal, _ in answer.words]
        counts['words left out: too many items'] += keep.count(False)
        subject.words = [word for word, kept in zip(subject.words, keep) if kept]
        answer.words = [word for word, kept in zip(answer.words, keep) if kept]


def fits(answer, counts):
    """Does the table of this font fit into what set.c lends?"""
    counts['fonts left out: too many ops'] += answer.refusal == setter.TOO_MANY_OPS
    return answer.refusal != setter.TOO_MANY_OPS


def ask_both(driver, folder, subjects, counts):
    """Triples of a subject and what the library and TeX say of it. A font with a loop is not shown to TeX, which would set it for ever."""
    answers = setter.ask(driver, [(subject.font, subject.words) for subject in subjects])
    pairs = [(s, a) for s, a in zip(subjects, answers) if fits(a, counts)]
    drop_long_words([s for s, _ in pairs], [a for _, a in pairs], counts)
    asked = [(loaded(s), [] if a.loops else s.words) for s, a in pairs]
    return [(s, a, t) for (s, a), t in zip(pairs, boxes.show(folder, asked))]


def compare(driver, folder, subjects, counts):
    """The differences between TeX and the library over these fonts, all files of the folder; counts says what was compared."""
    found = []
    for subject, answer, shown in ask_both(driver, folder, subjects, counts):
        if not shown.taken:
            counts['fonts left out: TeX does not load them'] += 1
            continue
        counts['fonts'] += 1
        whole = font_difference(subject, answer, shown)
        found += [whole] if whole else compare_words(subject, answer, shown, counts)
    return found
