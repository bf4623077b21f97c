"""TeX's answers: words set in boxes by iniTeX, and the boxes read from its log (TeX 176, 184 to 193, 1030, 1034 to 1040, 1296).

A word stands alone in an \\hbox, so that TeX reads the left boundary before it and the boundary character after it; \\noboundary before it takes the
left boundary away, and after it the right one. Nothing but primitives is used, so that no format is needed."""
import contextlib
import os
import subprocess
from dataclasses import dataclass, field

HEAD = r'''\catcode`\{=1 \catcode`\}=2 \newlinechar=-1 \tracinglostchars=1 \showboxbreadth=1000000 \showboxdepth=1 \errorcontextlines=-1
'''
LIMIT_SECONDS = 60


@dataclass
class Shown:
    """What TeX made of a font: whether it took it, its boxes in order, and what else it said."""
    taken: bool = True
    boxes: list = field(default_factory=list)
    complaints: list = field(default_factory=list)


def token(code):
    """A letter or a digit as it is, any other code by its number."""
    letter = chr(code)
    return letter if letter.isascii() and letter.isalnum() else f'\\char{code} '


def box(word):
    start = '\\f ' if word.left else '\\f\\noboundary '
    end = '' if word.right else '\\noboundary'
    return f'\\setbox0\\hbox{{{start}{"".join(map(token, word.letters))}{end}}}\\showbox0'


def source(asked):
    """A TeX file that shows the boxes of the words of each font."""
    lines = [HEAD]
    for index, (name, words) in enumerate(asked):
        lines += [f'\\immediate\\write-1{{@font {index}}}', f'\\font\\f={name}']
        lines += [box(word) for word in words]
    return '\n'.join(lines) + '\n\\end\n'


def run(folder, text):
    """The lines of TeX's log; its fonts are the files of the folder. A run that does not end is broken off, and its boxes are missing."""
    with open(os.path.join(folder, 'boxes.tex'), 'w', encoding='ascii') as file:
        file.write(text)
    env = dict(os.environ, TEXFONTS='.', TEXINPUTS='.', MKTEXTFM='0', max_print_line='10000')
    with contextlib.suppress(subprocess.TimeoutExpired):
        subprocess.run(['tex', '-ini', '-interaction=batchmode', 'boxes.tex'], cwd=folder, env=env, stdin=subprocess.DEVNULL,
                       stdout=subprocess.DEVNULL, stderr=subprocess.DEVNULL, timeout=LIMIT_SECONDS, check=False)
    with open(os.path.join(folder, 'boxes.log'), encoding='latin-1') as file:
        return file.read().split('\n')


def read_box(lines, at):
    """The lines of the box whose head stands there, and the place after it."""
    end = at + 1
    while end < len(lines) and lines[end].startswith('.'):
        end += 1
    return lines[at + 1:end], end


def note(shown, line):
    """What else a line says of a font."""
    if line.startswith('! Font '):
        shown.taken = False
    elif line.startswith('Missing character') or line.startswith('!') and line != '! OK.':
        shown.complaints.append(line)


def read_log(lines, count):
    """What TeX showed of so many fonts."""
    fonts, current, at = [Shown() for _ in range(count)], Shown(), 0
    while at < len(lines):
        line, at = lines[at], at + 1
        if line.startswith('@font '):
            current = fonts[int(line[6:])]
        elif line == '> \\box0=':
            found, at = read_box(lines, at)
            current.boxes.append(found)
        else:
            note(current, line)
    return fonts


def show(folder, asked):
    """What TeX shows of a list of fonts, each a file's name and its words."""
    return read_log(run(folder, source(asked)), len(asked))
