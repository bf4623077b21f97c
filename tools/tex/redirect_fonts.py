"""Words on random fonts with redirects on their chains. pltotf writes no such font, so that some instructions of its file are made redirects: at an
entry TeX follows them, and elsewhere it passes over them (TeX 1039)."""
import os
import random
import tempfile
from collections import Counter

import random_fonts
import random_words
import tfm
import trial
import waits

TITLE = 'words on random fonts with redirects on their chains'
REDIRECT_SHARE = 0.2


def with_redirects(rng, data):
    """The file with some of its instructions made redirects: the first byte above 128, and the target one of the instructions (TeX 573)."""
    out, (start, count) = bytearray(data), tfm.program_place(data)
    for at in range(4 * start, 4 * (start + count), 4):
        if out[at] <= 128 and rng.random() < REDIRECT_SHARE:
            out[at] = rng.randint(129, 255)
            out[at + 2:at + 4] = rng.randrange(count).to_bytes(2, 'big')
    return bytes(out)


def put(place, name, data):
    """The path of a file that has these bytes."""
    path = os.path.join(place, name + '.tfm')
    with open(path, 'wb') as file:
        file.write(data)
    return path


def ending_file(rng, place, name, counts):
    """The bytes of a file with redirects of which no pair loops."""
    while True:
        random_fonts.silent_program(rng, place, name, counts)
        with open(os.path.join(place, name + '.tfm'), 'rb') as file:
            data = with_redirects(rng, file.read())
        if not waits.has_loop(tfm.read(put(place, name, data))):
            return data
        counts['files with a loop'] += 1


def subject(seed, place, number, counts):
    """The font of a number, with its words."""
    rng = random.Random(f'{seed} redirects {number}')
    name = f'd{number}'
    data = ending_file(rng, place, name, counts)
    font = trial.read(os.path.join(place, name + '.tfm'), counts)
    return trial.Subject(name, font, random_words.words(rng, font, random_fonts.WORDS_OF_A_FONT), data)


def batch(task):
    """The counts and the differences of the fonts of these numbers."""
    driver, folder, seed, numbers = task
    counts = Counter()
    with tempfile.TemporaryDirectory(dir=folder) as place:
        subjects = [subject(seed, place, number, counts) for number in numbers]
        return counts, trial.compare(driver, place, subjects, counts)


def case(driver, place, data, word):
    """The difference of one word on the font of a file's bytes, or None."""
    font = tfm.read(put(place, 'one', data))
    found = trial.compare(driver, place, [trial.Subject('one', font, [word] if word else [], data)], Counter())
    return found[0] if found else None
