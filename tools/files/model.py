"""A font's file read and written, computed from the request's text and TeX 539 to 545.

It shares nothing with the port. Packing follows docs/RULES.md R154 to R163 and PLtoTF 139 to 142.
A function answers a number and a value: 0 and what it found, or the number of a refusal and None.
An instruction is (next, right character, kind, operand), an entry (character, index).
"""

WORDS = 32767  # the most words of a file, and the most instructions or kerns
NONE = -1
KERN, KERN_AT, LIGATURE, REDIRECT = 0, 1, 2, 3
FLAG = 65536  # added to the operand of a redirect whose flag is set
LF, LH, BC, EC, NW, NH, ND, NI, NL, NK, NE, NP = range(12)


# The file and its parts (TeX 540, 541).


def lengths_of(file):
    """The twelve lengths; a byte past the end counts as 0."""
    front = list(file[:24]) + [0] * 24
    return [256 * front[2 * i] + front[2 * i + 1] for i in range(12)]


def characters(n):
    return n[EC] - n[BC] + 1


def section_sizes(n):
    """The words of each part, the lengths themselves first."""
    return [6, n[LH], characters(n), n[NW], n[NH], n[ND], n[NI], n[NL], n[NK], n[NE], n[NP]]


def is_17(file):
    """The lengths of the file break a rule."""
    n = lengths_of(file)
    if max(n) > WORDS:
        return True
    if not n[BC] - 1 <= n[EC] <= 255:
        return True
    if n[LF] != sum(section_sizes(n)):
        return True
    return len(file) != 4 * n[LF]


def sections(file):
    """The bytes of each part of a file that is not refused."""
    parts, at = [], 0
    for size in section_sizes(lengths_of(file)):
        parts.append(file[at:at + 4 * size])
        at += 4 * size
    return parts


def words_of(part):
    return [tuple(part[i:i + 4]) for i in range(0, len(part), 4)]


def fix_word(word):
    """Four bytes as a signed number."""
    bits = int.from_bytes(bytes(word), "big")
    return bits - (1 << 32) if bits >= 1 << 31 else bits


# Reading (TeX 543 to 545).


def instruction_of(word):
    skip, right, op, remainder = word
    if skip > 128:
        return (NONE, right, REDIRECT, 256 * op + remainder)
    after = NONE if skip == 128 else skip
    if op >= 128:
        return (after, right, KERN_AT, 256 * (op - 128) + remainder)
    return (after, right, LIGATURE, 256 * op + remainder)


def entries_in(n, char_words):
    """The characters that exist and have a program, and its packed start."""
    found = []
    for i, (width, _, italic_and_tag, remainder) in enumerate(char_words):
        if width != 0 and italic_and_tag % 4 == 1:
            found.append((n[BC] + i, remainder))
    return found


def read_font(file):
    """Instructions, kerns, entries, boundary character and left entry of a file that is not refused."""
    parts = sections(file)
    commands = words_of(parts[7])
    instructions = [instruction_of(word) for word in commands]
    kerns = [fix_word(word) for word in words_of(parts[8])]
    entries = entries_in(lengths_of(file), words_of(parts[2]))
    boundary = commands[0][1] if commands and commands[0][0] == 255 else NONE
    left = 256 * commands[-1][2] + commands[-1][3] if commands and commands[-1][0] == 255 else NONE
    return instructions, kerns, entries, boundary, left


def deserialize(file, rooms):
    """The font of a file. The rooms are how many numbers fit in the lists for instructions, kerns and entries."""
    if is_17(file):
        return 17, None
    font = read_font(file)
    needed = (4 * len(font[0]), len(font[1]), 2 * len(font[2]))
    if any(need > room for need, room in zip(needed, rooms)):
        return 15, None
    return 0, font


# What a font to be written may be (R25 to R36, R230 to R233).


def is_instruction(record):
    after, right, kind, operand = record
    if not (-1 <= after <= 255 and 0 <= right <= 255):
        return False
    highest = {KERN_AT: 65535, LIGATURE: 32767, REDIRECT: 131071}
    return kind == KERN or (kind in highest and 0 <= operand <= highest[kind])


def records_of(numbers, width):
    return [tuple(numbers[i:i + width]) for i in range(0, len(numbers), width)]


def is_1(numbers):
    return len(numbers) % 4 != 0 or len(numbers) // 4 > WORDS


def is_2(numbers):
    return not all(is_instruction(r) for r in records_of(numbers, 4))


def is_4(numbers, boundary, left):
    if len(numbers) % 2 != 0:
        return True
    entries = records_of(numbers, 2)
    if not all(0 <= c <= 255 and 0 <= e <= 65535 for c, e in entries):
        return True
    if len({c for c, _ in entries}) != len(entries):
        return True
    return not (-1 <= boundary <= 255 and -1 <= left <= 65535)


# Packing entries (R154 to R163; PLtoTF 139 to 142).


def redirected(entries, boundary):
    """The entries that get a redirect, largest first, and how many instructions stand in front."""
    labels = sorted({e for _, e in entries}, reverse=True)
    extra = 1 if boundary != NONE else 0
    if not labels or labels[0] + extra <= 255:
        return [], extra
    taken = 1
    while taken < len(labels) and labels[taken] + taken >= 256:
        taken += 1
    return labels[:taken], taken


def pack_entries(instructions, entries, boundary, left):
    """The packed instructions, the packed entries in the lent order, and the left entry, moved as they are."""
    labels, offset = redirected(entries, boundary)
    right = boundary if boundary != NONE else 0
    front = [(NONE, right, REDIRECT, FLAG + label + offset) for label in labels]
    if not labels and boundary != NONE:
        front = [(NONE, right, REDIRECT, FLAG)]
    last = [] if left == NONE else [(NONE, 0, REDIRECT, left + offset)]
    packed = [(c, labels.index(e) if e in labels else e + offset) for c, e in entries]
    return front + list(instructions) + last, packed, NONE if left == NONE else left + offset


def is_10(entries, boundary):
    return len(redirected(entries, boundary)[0]) >= 256


def is_11(entries, boundary, left):
    """An entry, or the left one, passes 65,535 once it is moved."""
    offset = redirected(entries, boundary)[1]
    return max([left, *[e for _, e in entries]]) + offset > 65535


# Sharing kerns.


def with_values(instructions, kerns):
    """Each kern by its value."""
    return [(a, r, KERN, kerns[x]) if kind == KERN_AT else (a, r, kind, x) for a, r, kind, x in instructions]


def shared(instructions):
    """Each kern by its index, and the kerns: each value once, as they first appear."""
    kerns = list(dict.fromkeys(x for _, _, kind, x in instructions if kind == KERN))
    index = {value: i for i, value in enumerate(kerns)}
    return [(a, r, KERN_AT, index[x]) if kind == KERN else (a, r, kind, x) for a, r, kind, x in instructions], kerns


def packed_font(instructions, kerns, entries, boundary, left):
    """Shared kerns and packed entries: the font as a file holds it."""
    program, list_of_kerns = shared(with_values(instructions, kerns))
    program, packed, moved = pack_entries(program, entries, boundary, left)
    return program, list_of_kerns, packed, boundary, moved


# Writing.


def command_of(instruction, first_byte):
    """The four bytes of an instruction; the first byte of a redirect is given."""
    after, right, kind, operand = instruction
    if kind == REDIRECT:
        return bytes([first_byte, right, operand % FLAG // 256, operand % 256])
    op = operand // 256 + 128 if kind == KERN_AT else operand // 256
    return bytes([128 if after == NONE else after, right, op, operand % 256])


def commands_of(program, boundary, left):
    """255 opens a redirect with a boundary character, and the one that holds the left entry; else 254."""
    out = b""
    for i, instruction in enumerate(program):
        added_last = left != NONE and i == len(program) - 1
        out += command_of(instruction, 255 if boundary != NONE or added_last else 254)
    return out


def character_word(word, entry):
    """The word of a character whose packed entry this is, None without one."""
    width, height, third, remainder = word
    if entry is not None:
        return bytes([width, height, third - third % 4 + 1, entry])
    if third % 4 == 1:
        return bytes([width, height, third - 1, 0])
    return bytes(word)


def new_length(old, packed):
    """The words of the new file."""
    program, kerns = packed[0], packed[1]
    n = lengths_of(old)
    return n[LF] - n[NL] - n[NK] + len(program) + len(kerns)


def is_18(old, instructions, kerns, entries, boundary, left):
    """The font does not go into this file."""
    n = lengths_of(old)
    count = len(instructions)
    if boundary != NONE and count == 0:
        return True
    for after, _, kind, operand in instructions:
        if kind == REDIRECT or after > 127 or (kind == KERN_AT and operand >= len(kerns)):
            return True
    if any(e >= count for _, e in entries) or left >= count:
        return True
    widths = [word[0] for word in words_of(sections(old)[2])]
    if any(not n[BC] <= c <= n[EC] or widths[c - n[BC]] == 0 for c, _ in entries):
        return True
    return new_length(old, packed_font(instructions, kerns, entries, boundary, left)) > WORDS


def written(old, packed):
    """The old file with another program."""
    program, kerns, entries, boundary, left = packed
    n = lengths_of(old)
    n[LF], n[NL], n[NK] = new_length(old, packed), len(program), len(kerns)
    entry_of = dict(entries)
    parts = sections(old)
    parts[0] = b"".join(x.to_bytes(2, "big") for x in n)
    parts[2] = b"".join(character_word(w, entry_of.get(n[BC] + i)) for i, w in enumerate(words_of(parts[2])))
    parts[7] = commands_of(program, boundary, left)
    parts[8] = b"".join(k.to_bytes(4, "big", signed=True) for k in kerns)
    return b"".join(parts)


def refusal_of_font(instructions, kerns, entries, boundary, left):
    """1 to 4, 10 and 11: what is wrong whatever the file is."""
    if is_1(instructions):
        return 1
    if is_2(instructions):
        return 2
    if len(kerns) > WORDS:
        return 3
    if is_4(entries, boundary, left):
        return 4
    if is_10(records_of(entries, 2), boundary):
        return 10
    return 11 if is_11(records_of(entries, 2), boundary, left) else 0


def replace_lig_kern_program(old, instructions, kerns, entries, boundary, left_entry, room):
    """The new file. Instructions and entries are flat numbers; the room is how many bytes fit."""
    number = refusal_of_font(instructions, kerns, entries, boundary, left_entry)
    if number != 0:
        return number, None
    if is_17(old):
        return 17, None
    font = (records_of(instructions, 4), kerns, records_of(entries, 2), boundary, left_entry)
    if is_18(old, *font):
        return 18, None
    file = written(old, packed_font(*font))
    return (15, None) if len(file) > room else (0, file)
