"""The comparison with TeX: words on random fonts, also with redirects on their chains, words on the machine's own fonts, loops on random fonts, font
files; counts, and the smallest difference.

Every font has a random generator of its own, made from the seed and the font's number, so that a run is the same on any number of cores."""
import argparse
import os
import sys
import tempfile
from collections import Counter
from concurrent.futures import ProcessPoolExecutor

import font_files
import loops
import own_fonts
import programs
import random_fonts
import redirect_fonts
import shrink
import tfm
import trial

FONTS_AT_ONCE = 125


def arguments():
    parser = argparse.ArgumentParser(prog='tools/tex/run', description='Compares the library with TeX and pltotf.')
    parser.add_argument('--seed', default='1', help='another seed makes other fonts and words (1)')
    parser.add_argument('--fonts', type=int, default=3000, help='how many random fonts for words, and how many for loops (3000)')
    parser.add_argument('--own', type=int, default=400, help="how many of the machine's own fonts at most (400)")
    parser.add_argument('--files', type=int, default=100000, help="how many of the machine's font files at most are read and written (all)")
    parser.add_argument('--jobs', type=int, default=os.cpu_count() or 1, help='how many runs at once (the cores)')
    parser.add_argument('--driver', required=True, help=argparse.SUPPRESS)
    return parser.parse_args()


def batches(values):
    return [values[k:k + FONTS_AT_ONCE] for k in range(0, len(values), FONTS_AT_ONCE)]


def run_batches(args, folder, comparison, values):
    """All batches of one comparison: the counts and the differences."""
    counts, found, tasks = Counter(), [], [(args.driver, folder, args.seed, some) for some in batches(values)]
    with ProcessPoolExecutor(args.jobs) as pool:
        for number, (counted, differences) in enumerate(pool.map(comparison.batch, tasks), 1):
            counts.update(counted)
            found += differences
            print(f'{comparison.TITLE}: {number} of {len(tasks)} batches', file=sys.stderr, flush=True)
    return counts, found


def print_counts(title, counts, found):
    print(f'== {title}')
    for name in sorted(counts):
        print(f'{counts[name]:>10,}  {name}')
    print(f'{len(found):>10,}  DIFFERENCES', flush=True)


def shown_origin(origin):
    """A program as its property list, the bytes of a file as they are read, and a path."""
    if isinstance(origin, programs.Program):
        return programs.property_list(origin)
    return f'the font {tfm.stored(origin) if isinstance(origin, bytes) else origin}'


def print_case(difference):
    """The font, the word and both answers."""
    print(shown_origin(difference.subject.origin))
    if difference.word:
        print(f'the word {difference.word.letters} {difference.word.way()}')
    print('TeX or pltotf:', *difference.tex, sep='\n    ')
    print('the library:', *difference.library, sep='\n    ', flush=True)


def print_smallest(args, folder, comparison, found):
    with tempfile.TemporaryDirectory(dir=folder) as place:
        smallest = min(found, key=trial.Difference.size)
        print_case(shrink.shrink(lambda origin, word: comparison.case(args.driver, place, origin, word), smallest))


def main():
    args = arguments()
    folder = os.path.dirname(os.path.abspath(args.driver))
    print(f'seed {args.seed}', flush=True)
    numbers = list(range(args.fonts))
    parted = False
    files = own_fonts.all_files()[:args.files] + numbers[::3]
    own = own_fonts.choose(args.seed, args.own)
    fonts = (random_fonts, numbers), (redirect_fonts, numbers[::3]), (own_fonts, own)
    for comparison, values in (*fonts, (loops, numbers), (font_files, files)):
        counts, found = run_batches(args, folder, comparison, values)
        print_counts(comparison.TITLE, counts, found)
        if found:
            parted = True
            print_smallest(args, folder, comparison, found)
    print('DIFFERENCES FOUND' if parted else 'all equal')
    return 1 if parted else 0


if __name__ == '__main__':
    sys.exit(main())
