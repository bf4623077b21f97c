"""The library's answers, asked through the program of set.c, and an item as TeX would show it (TeX 48, 49, 103, 191, 193)."""
import subprocess
from dataclasses import dataclass, field

import tfm

CHARACTER, LIGATURE, KERN = range(3)
TOO_MANY_OPS, TOO_SHORT = 14, 15


@dataclass
class Answer:
    """A font compiled: the refusal or 0, the loop list, and of each word the refusal or 0 and its items."""
    refusal: int
    loops: list
    words: list = field(default_factory=list)


def numbers(values):
    return ' '.join(map(str, values))


def font_request(font):
    head = [font.boundary, font.left_entry, font.design_size, font.size, font.magnification]
    head += [len(font.instructions), len(font.kerns), len(font.entries)]
    body = [n for instruction in font.instructions for n in instruction] + font.kerns + [n for pair in sorted(font.entries.items()) for n in pair]
    return 'F ' + numbers(head + body)


def word_request(word):
    return 'W ' + numbers([int(word.left), int(word.right), len(word.letters)] + word.letters)


def by(size, values):
    return [tuple(values[k:k + size]) for k in range(0, len(values), size)]


def read_answers(lines):
    """The answers of the fonts in order, each with those of its words."""
    answers = []
    for line in lines:
        letter, *rest = line.split()
        values = list(map(int, rest))
        if letter == 'F':
            answers.append(Answer(values[0], by(2, values[4:])))
        else:
            answers[-1].words.append((values[0], by(6, values[2:])))
    return answers


def ask_lines(driver, lines):
    """The lines that set.c answers to these."""
    done = subprocess.run([driver], input='\n'.join(lines) + '\n', stdout=subprocess.PIPE, check=True, text=True, timeout=600)
    return done.stdout.splitlines()


def ask(driver, asked):
    """The answers to a list of fonts, each with its words."""
    lines = []
    for font, words in asked:
        lines.append(font_request(font))
        lines += [word_request(word) for word in words]
    return read_answers(ask_lines(driver, lines))


@dataclass
class FileAnswer:
    """A font file read: the refusal or 0, the font as it stands there, and its entries unpacked, -1 where one does not unpack."""
    refusal: int
    font: tfm.Stored
    unpacked: list


def read_file_answer(line):
    refusal, boundary, left_entry, n, k, e, *rest = map(int, line.split()[1:])
    a, b, c = 4 * n, 4 * n + k, 4 * n + k + 2 * e
    return FileAnswer(refusal, tfm.Stored(by(4, rest[:a]), rest[a:b], by(2, rest[b:c]), boundary, left_entry), rest[c:])


def ask_files(driver, files):
    """The answers to a list of font files, each in bytes."""
    return [read_file_answer(line) for line in ask_lines(driver, ['D ' + numbers([len(file), *file]) for file in files])]


def ask_writing(driver, asked):
    """Of each font and old file: the refusal or 0, and the new file in bytes."""
    lines = ask_lines(driver, ['R ' + font_request(font)[2:] + ' ' + numbers([len(old), *old]) for font, old in asked])
    answers = [list(map(int, line.split()[1:])) for line in lines]
    return [(refusal, bytes(file)) for refusal, _, *file in answers]


def shown_code(code):
    """A character as TeX prints it (TeX 48 and 49)."""
    if code >= 128:
        return f'^^{code:02x}'
    if code < 32 or code == 127:
        return '^^' + chr(code ^ 64)
    return chr(code)


def shown_scaled(scaled):
    """A length as TeX prints it (TeX 103): digits until the rest is below what the last digit leaves open."""
    out = '-' if scaled < 0 else ''
    scaled = abs(scaled)
    out += f'{scaled // 65536}.'
    scaled, delta = 10 * (scaled % 65536) + 5, 10
    while True:
        if delta > 65536:
            scaled += 32768 - 50000
        out += str(scaled // 65536)
        scaled, delta = 10 * (scaled % 65536), 10 * delta
        if scaled <= delta:
            return out


def shown_item(item, letters):
    """An item as a line of a box (TeX 176, 191, 193)."""
    kind, value, start, length, left, right = item
    if kind == KERN:
        return f'.\\kern{shown_scaled(value)}'
    if kind == CHARACTER:
        return f'.\\f {shown_code(value)}'
    original = ''.join(map(shown_code, letters[start:start + length]))
    return f'.\\f {shown_code(value)} (ligature {"|" * left}{original}{"|" * right})'


def shown(items, word):
    """The items as lines of a box, and a line more where a bar is set for a boundary that was not read: TeX 1040 has none."""
    lines = [shown_item(item, word.letters) for item in items]
    astray = any(item[4] and not word.left or item[5] and not word.right for item in items)
    return lines + (['a bar for a boundary that was not read'] if astray else [])


def is_one_bar(item):
    """A ligature made of nothing with one boundary: TeX shows the same bar for the left as for the right."""
    return item[0] == LIGATURE and item[3] == 0 and item[4] != item[5]
