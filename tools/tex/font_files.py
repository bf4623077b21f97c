"""Font files, the machine's own and those that pltotf makes of random programs: read by the library and by tfm.py, written back with their own program,
and read again.

A file is lent without what follows its last word. Writing takes unpacked entries and no redirect: those of the file are left out first, since the
library makes its own. What must be equal after that: each instruction, with its kern by value; each entry, the boundary character and the left entry;
every other byte of the file; and what tftopl says of both files."""
import os
import random
import subprocess
import tempfile
from collections import Counter

import random_fonts
import setter
import tfm
import trial

TITLE = 'font files read and written'
OTHERS = ['lh', 'nw', 'nh', 'nd', 'ni', 'ne', 'np']


def lent(path, counts):
    """The bytes of a file, without what follows its last word."""
    with open(path, 'rb') as file:
        data = file.read()
    counts['files'] += 1
    counts['files with bytes after their last word'] += len(data) > 4 * tfm.lengths(data)[0]
    return data[:4 * tfm.lengths(data)[0]]


def difference(path, due, is_):
    """One case: what is due, and what the library says; its font stands for its size alone."""
    font = tfm.Font([], [], {}, -1, -1, 0, [])
    return trial.Difference(trial.Subject(os.path.basename(path), font, [], path), None, due, is_)


def count_font(font, counts):
    counts['instructions'] += len(font.instructions)
    counts['kerns'] += len(font.kerns)
    counts['entries'] += len(font.entries)
    counts['files with a program'] += bool(font.instructions)
    counts['files with a boundary character'] += font.boundary >= 0
    counts['files with a left entry'] += font.left_entry >= 0


def compare_read(path, data, answer, counts):
    """The difference between the library's reading of a file and that of tfm.py, or None."""
    due = tfm.refusal(data)
    counts['files refused with 17'] += due == 17
    if due != 0:
        return None if answer.refusal == due else difference(path, [f'refusal {due}'], [f'refusal {answer.refusal}'])
    font = tfm.stored(data)
    count_font(font, counts)
    if answer.refusal == 0 and answer.font == font:
        return None
    return difference(path, [str(font)], [f'refusal {answer.refusal}', str(answer.font)])


def by_value(font):
    """The instructions with kern values for kern indices."""
    return [(n, r, tfm.KERN_VALUE, font.kerns[o]) if kind == tfm.KERN_INDEX else (n, r, kind, o) for n, r, kind, o in font.instructions]


def due_refusal(font):
    """18 for what no file holds of a font that was read (docs/RULES.md), and 0."""
    count = len(font.instructions)
    starts = [*font.entries.values(), font.left_entry]
    inside = all(kind != tfm.KERN_INDEX or operand < len(font.kerns) for _, _, kind, operand in font.instructions)
    return 0 if inside and max(starts) < count and (count > 0 or font.boundary < 0) else 18


def other_bytes(data):
    """What writing leaves as it is: nine lengths, the other sections, and of each character's word all but tag and remainder of a program."""
    found = tfm.sections(data)
    characters = [(w, h, t // 4, (t % 4, r) if t % 4 > 1 else None) for w, h, t, r in tfm.words_of(found['characters'])]
    numbers = tfm.lengths(data)
    return numbers[1:8] + numbers[10:], [found[name] for name in OTHERS], characters


def property_list(place, name, data):
    """What tftopl says of a file."""
    with open(os.path.join(place, name + '.tfm'), 'wb') as file:
        file.write(data)
    done = subprocess.run(['tftopl', name + '.tfm'], cwd=place, stdin=subprocess.DEVNULL, stdout=subprocess.PIPE, stderr=subprocess.STDOUT,
                          timeout=60, check=False)
    return done.returncode, done.stdout.replace(name.encode(), b'')


def meanings(font):
    return by_value(font), font.entries, font.boundary, font.left_entry


def compare_written(place, path, old, new, font, answer, counts):
    """The difference between a file and the one that has its own program again, or None."""
    counts['files written as they were, byte for byte'] += new == old
    again = answer.font.without_redirects(answer.unpacked) if answer.refusal == 0 else None
    if again is None or tfm.stored(new) != answer.font or meanings(again) != meanings(font):
        return difference(path, [str(meanings(font))], [f'refusal {answer.refusal} of the new file', str(answer.font)])
    if other_bytes(new) != other_bytes(old):
        return difference(path, ['the bytes of the old file'], ['other bytes in the new one'])
    counts['files of which tftopl says the same'] += 1
    if property_list(place, 'old', old) != property_list(place, 'new', new):
        return difference(path, ['tftopl says of both files the same'], ['it does not'])
    return None


def writable(answers, counts):
    """The fonts that can be written back, with the places of their files: those whose redirects stand in front and at the end."""
    for place, answer in enumerate(answers):
        if answer.refusal != 0:
            continue
        font = answer.font.without_redirects(answer.unpacked) if -1 not in answer.unpacked else None
        counts['files left out of writing: a redirect elsewhere, or an entry that does not unpack'] += font is None
        if font is not None:
            yield place, font


def write_back(driver, place, files, answers, counts):
    """The differences over the files that are written back and read again. A file is a path and its bytes."""
    found, new = [], []
    fonts = list(writable(answers, counts))
    for (k, font), (refusal, data) in zip(fonts, setter.ask_writing(driver, [(font, files[k][1]) for k, font in fonts])):
        counts['files refused with 18'] += refusal == 18
        if refusal != due_refusal(font):
            found.append(difference(files[k][0], [f'refusal {due_refusal(font)}'], [f'refusal {refusal}']))
        elif refusal == 0:
            new.append((k, font, data))
    for (k, font, data), answer in zip(new, setter.ask_files(driver, [data for _, _, data in new])):
        found.append(compare_written(place, *files[k], data, font, answer, counts))
    return found


def compare(driver, place, paths, counts):
    """The differences over the files of these paths."""
    files = [(path, lent(path, counts)) for path in paths]
    answers = setter.ask_files(driver, [data for _, data in files])
    found = [compare_read(path, data, answer, counts) for (path, data), answer in zip(files, answers)]
    if not any(found):
        found += write_back(driver, place, files, answers, counts)
    return [each for each in found if each]


def made(seed, place, number, counts):
    """The path of the file that pltotf makes of a random program with both boundaries."""
    counts['files made by pltotf'] += 1
    random_fonts.silent_program(random.Random(f'{seed} files {number}'), place, f'm{number}', counts)
    return os.path.join(place, f'm{number}.tfm')


def batch(task):
    """The counts and the differences of these files, each a path, or the number of a random program."""
    driver, folder, seed, values = task
    counts = Counter()
    with tempfile.TemporaryDirectory(dir=folder) as place:
        paths = [made(seed, place, value, counts) if isinstance(value, int) else value for value in values]
        return counts, compare(driver, place, paths, counts)


def case(driver, place, path, _):
    """The difference on one file, or None."""
    found = compare(driver, place, [path], Counter())
    return found[0] if found else None
