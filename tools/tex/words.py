"""The words of crates/main_loops/specs/Words.antt, set by TeX itself: the font is written from the rules of that file, and what TeX shows of each word
must be the nodes that stand there (TeX 176, 193). So with the words of crates/main_loop_fonts/specs/Example.antt, whose font is the bytes that stand
there. Ends with 0 where all are equal.

    python3 tools/tex/words.py

needs tex and pltotf, and writes below a temporary folder only."""
import os
import re
import subprocess
import sys
import tempfile
from collections import namedtuple

import boxes

CRATES = os.path.join(os.path.dirname(os.path.abspath(__file__)), '../../crates')
RULES = os.path.join(CRATES, 'main_loops/specs/Words.antt')
BYTES = os.path.join(CRATES, 'main_loop_fonts/specs/Example.antt')
BOUNDARY = 33
OPERATIONS = {
    'RetainNeitherMoveToInserted': 'LIG', 'RetainRightMoveToInserted': 'LIG/', 'RetainLeftMoveNowhere': '/LIG',
    'RetainBothMoveNowhere': '/LIG/', 'RetainRightMoveToRight': 'LIG/>', 'RetainLeftMoveToInserted': '/LIG>',
    'RetainBothMoveToInserted': '/LIG/>', 'RetainBothMoveToRight': '/LIG/>>'}
RULE = re.compile(r'ruled (bnd|\(chr (\d+)\)) (\d+) \((?:kerned \(pos (\d+)\)|lig (\w+) (\d+))\)')
WORD = re.compile(r'texWord (true|false) \(([^()]*)\) (none|\(some (\d+)\)) \((.*)\)$', re.MULTILINE)
NODE = re.compile(r'charNode (\d+)|kernNode \(pos (\d+)\)|ligatureNode (\d+) (?:\(([^()]*)\)|\[\]) (\d)')
Word = namedtuple('Word', 'left letters right')


def codes(text):
    return [int(code) for code in re.findall(r'\d+', text or '')]


def command(kern, operation, right, inserted):
    if kern:
        return f'(KRN O {right:o} R {int(kern) / 655360:.6f})'
    return f'({OPERATIONS[operation]} O {right:o} O {int(inserted):o})'


def property_list(rules):
    """The font: the rules of a left, one after the other, and every character that they speak of."""
    lefts, characters = {}, set()
    for boundary, left, right, kern, operation, inserted in rules:
        lefts.setdefault('BOUNDARYCHAR' if boundary == 'bnd' else f'O {int(left):o}', []).append(command(kern, operation, int(right), inserted))
        characters |= {int(code) for code in (left, right, inserted) if code}
    steps = '\n'.join(f'(LABEL {left})' + ''.join(commands) + '(STOP)' for left, commands in lefts.items())
    exists = '\n'.join(f'(CHARACTER O {code:o} (CHARWD R 0.5))' for code in sorted(characters))
    return f'(DESIGNSIZE R 10.0)(BOUNDARYCHAR O {BOUNDARY:o})\n(LIGTABLE\n{steps})\n{exists}\n'


def shown(node):
    """A node as TeX shows it. A ligature made of nothing shows one bar for either boundary; here each such word has one alone."""
    char, kern, ligature, letters, subtype = node
    if char:
        return f'.\\f {chr(int(char))}'
    if kern:
        return f'.\\kern {int(kern) / 65536:.1f}'.replace('kern ', 'kern')
    left, right = ('|' if int(subtype) & bit else '' for bit in (2, 1))
    return f'.\\f {chr(int(ligature))} (ligature {left}{"".join(map(chr, codes(letters)))}{right})'


def read(path):
    with open(path, encoding='utf-8') as file:
        return file.read()


def from_rules(folder, text):
    """A font of the rules that stand in a text, and what pltotf says of it."""
    with open(os.path.join(folder, 'rules.pl'), 'w', encoding='ascii') as file:
        file.write(property_list(RULE.findall(text)))
    return subprocess.run(['pltotf', 'rules.pl', 'rules.tfm'], cwd=folder, capture_output=True, text=True, check=True).stdout.strip()


def from_bytes(folder, text):
    """A font of the bytes that stand in a text."""
    with open(os.path.join(folder, 'bytes.tfm'), 'wb') as file:
        file.write(bytes(codes(re.search(r'\nsmallFile =\n(.*?)\[\]', text, re.DOTALL)[1])))
    return ''


def compare(folder, name, path, write):
    """How many words of a table TeX shows otherwise, or 1 where it says more."""
    text = read(path)
    said, words = write(folder, text), WORD.findall(text)
    asked = [Word(left == 'true', codes(letters), right != 'none') for left, letters, right, _, _ in words]
    made = boxes.show(folder, [(name, asked)])[0]
    differ = 0
    for word, (_, _, _, _, nodes), lines in zip(asked, words, made.boxes, strict=True):
        expected = [shown(node) for node in NODE.findall(nodes)]
        differ += lines != expected
        print('equal ' if lines == expected else 'DIFFER', ''.join(map(chr, word.letters)), ' '.join(lines), '' if lines == expected else expected)
    print(f'{name}: {len(words)} words, {differ} differences', said, ' '.join(made.complaints))
    return differ + bool(said or made.complaints or not made.taken or not words)


def main():
    with tempfile.TemporaryDirectory() as folder:
        differ = compare(folder, 'rules', RULES, from_rules) + compare(folder, 'bytes', BYTES, from_bytes)
    sys.exit(1 if differ else 0)


if __name__ == '__main__':
    main()
