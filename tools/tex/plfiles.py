"""Property lists given to pltotf: the TFM file that it writes, and what it says."""
import os
import re
import subprocess

import programs

LOOP = re.compile(r"Infinite ligature loop starting with (boundary|'[0-7]{3}) and '([0-7]{3})!")


def pltotf(folder, name, program):
    """Writes NAME.pl and lets pltotf write NAME.tfm; what pltotf says."""
    with open(os.path.join(folder, name + '.pl'), 'w', encoding='ascii') as file:
        file.write(programs.property_list(program))
    done = subprocess.run(['pltotf', name + '.pl', name + '.tfm'], cwd=folder, stdin=subprocess.DEVNULL, stdout=subprocess.PIPE,
                          stderr=subprocess.STDOUT, text=True, timeout=60, check=False)
    return done.stdout.strip() if done.returncode == 0 else done.stdout + f'pltotf ended with {done.returncode}'


def loop_named(said):
    """The pair that pltotf names as the start of a loop (PLtoTF 125), the left boundary being -1, or None."""
    found = LOOP.search(said)
    if not found:
        return None
    left = -1 if found[1] == 'boundary' else int(found[1][1:], 8)
    return left, int(found[2], 8)
