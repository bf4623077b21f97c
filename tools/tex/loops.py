"""pltotf's own word on loops beside compile's loop list, on random fonts.

pltotf names one pair, the one that it found last (PLtoTF 124 and 125); the list has one pair of each cycle. Where one of the two speaks of a loop the
other must, and the pair named must be in the list or wait for a pair of it. Of a font with a loop pltotf writes no program, so that the library gets
the program of the property list itself."""
import random
import tempfile
from collections import Counter

import plfiles
import programs
import setter
import trial
import waits

TITLE = 'loops on random fonts'


def part(subject, said, answer, counts):
    """The difference between what pltotf said of a font and its loop list, or None."""
    named = plfiles.loop_named(said)
    counts['fonts with a loop' if named else 'fonts without a loop'] += 1
    counts['fonts with another message'] += bool(said) and not named
    counts['pairs listed'] += len(answer.loops)
    listed = named is not None and named in answer.loops
    waiting = named is not None and not listed and waits.reaches(subject.font, named, answer.loops)
    counts['pairs named that are in the list'] += listed
    counts['pairs named that wait for a pair of the list'] += waiting
    if answer.refusal == 0 and (listed or waiting or named is None and not answer.loops):
        return None
    return trial.Difference(subject, None, [said or 'nothing said'], [f'refusal {answer.refusal}', f'loops {answer.loops}'])


def compare(driver, place, subjects, counts):
    """The differences over these fonts."""
    said = [plfiles.pltotf(place, subject.name, subject.origin) for subject in subjects]
    answers = setter.ask(driver, [(subject.font, []) for subject in subjects])
    counts['fonts'] += len(subjects)
    found = [part(*three, counts) for three in zip(subjects, said, answers)]
    return [difference for difference in found if difference]


def batch(task):
    """The counts and the differences of the fonts of these numbers."""
    driver, folder, seed, numbers = task
    counts, subjects = Counter(), []
    for number in numbers:
        program = programs.loop_program(random.Random(f'{seed} loops {number}'))
        subjects.append(trial.Subject(f'l{number}', program.font(), [], program))
    with tempfile.TemporaryDirectory(dir=folder) as place:
        return counts, compare(driver, place, subjects, counts)


def case(driver, place, program, _):
    """The difference on one program, or None."""
    found = compare(driver, place, [trial.Subject('one', program.font(), [], program)], Counter())
    return found[0] if found else None
