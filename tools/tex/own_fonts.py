"""Words on the machine's own fonts: the TFM files that kpsewhich's path leads to."""
import glob
import os
import random
import shutil
import subprocess
import tempfile
from collections import Counter

import random_words
import tfm
import trial

TITLE = "words on the machine's own fonts"
WORDS_OF_A_FONT = 30


def all_files():
    """The TFM files of this machine."""
    path = subprocess.run(['kpsewhich', '--show-path=tfm'], stdout=subprocess.PIPE, check=True, text=True).stdout.strip()
    folders = [part.lstrip('!').rstrip('/') for part in path.split(':')]
    return sorted({file for part in folders if os.path.isabs(part) for file in glob.glob(part + '/**/*.tfm', recursive=True)})


def has_program(path):
    try:
        return bool(tfm.read(path).lefts())
    except tfm.BadFile:
        return False


def choose(seed, most):
    """So many of the files that have a program, chosen by the seed; all of them where there are fewer."""
    files = all_files()
    with_program = [file for file in files if has_program(file)]
    taken = random.Random(f'{seed} own').sample(with_program, min(most, len(with_program)))
    print(f'{len(files)} TFM files on this machine, {len(with_program)} with a program, {len(taken)} taken', flush=True)
    return sorted(taken)


def subject(seed, place, number, path, counts):
    """The font of a file, with its words, under a name of its own."""
    name = f'o{number}'
    shutil.copyfile(path, os.path.join(place, name + '.tfm'))
    font = trial.read(path, counts)
    counts['fonts with a boundary character'] += font.boundary >= 0
    counts['fonts with a left boundary'] += font.left_entry >= 0
    return trial.Subject(name, font, random_words.words(random.Random(f'{seed} own {path}'), font, WORDS_OF_A_FONT), path)


def batch(task):
    """The counts and the differences of the fonts of these files."""
    driver, folder, seed, paths = task
    counts = Counter()
    with tempfile.TemporaryDirectory(dir=folder) as place:
        subjects = [subject(seed, place, number, path, counts) for number, path in enumerate(paths)]
        return counts, trial.compare(driver, place, subjects, counts)


def case(driver, place, path, word):
    """The difference of one word on the font of a file, or None."""
    shutil.copyfile(path, os.path.join(place, 'one.tfm'))
    found = trial.compare(driver, place, [trial.Subject('one', trial.read(path, Counter()), [word] if word else [], path)], Counter())
    return found[0] if found else None
