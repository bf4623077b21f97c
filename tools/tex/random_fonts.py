"""Words on random fonts with both boundaries, those that pltotf says nothing of."""
import os
import random
import tempfile
from collections import Counter

import plfiles
import programs
import random_words
import trial

TITLE = 'words on random fonts'
WORDS_OF_A_FONT = 24


def silent_program(rng, place, name, counts):
    """A random program that pltotf says nothing of; NAME.tfm is then its file."""
    while True:
        program = programs.word_program(rng)
        counts['property lists written'] += 1
        said = plfiles.pltotf(place, name, program)
        if not said:
            return program
        counts['property lists with a loop' if plfiles.loop_named(said) else 'property lists with another message'] += 1


def subject(seed, place, number, counts):
    """The font of a number, with its words."""
    rng = random.Random(f'{seed} words {number}')
    name = f'r{number}'
    program = silent_program(rng, place, name, counts)
    font = trial.read(os.path.join(place, name + '.tfm'), counts)
    counts['fonts with an entry past 255'] += any(at > 255 for at in font.entries.values())
    return trial.Subject(name, font, random_words.words(rng, font, WORDS_OF_A_FONT), program)


def batch(task):
    """The counts and the differences of the fonts of these numbers."""
    driver, folder, seed, numbers = task
    counts = Counter()
    with tempfile.TemporaryDirectory(dir=folder) as place:
        subjects = [subject(seed, place, number, counts) for number in numbers]
        return counts, trial.compare(driver, place, subjects, counts)


def case(driver, place, program, word):
    """The difference of one word on one program, or None; None too where pltotf says something."""
    if plfiles.pltotf(place, 'one', program):
        return None
    font = trial.read(os.path.join(place, 'one.tfm'), Counter())
    found = trial.compare(driver, place, [trial.Subject('one', font, [word] if word else [], program)], Counter())
    return found[0] if found else None
