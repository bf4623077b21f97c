"""A smaller case of a difference: letters, steps and labels are taken away as long as the two still part."""
import programs


def shorter_words(word):
    """The word without one of its letters, but for an empty one."""
    if not word or len(word.letters) < 2:
        return []
    return [word._replace(letters=word.letters[:k] + word.letters[k + 1:]) for k in range(len(word.letters))]


def smaller_programs(program):
    """The program without one of its steps or labels, but for one without steps."""
    if len(program.steps) > 1:
        yield from (programs.without_step(program, k) for k in range(len(program.steps)))
    yield from (programs.without_entry(program, character) for character in program.entries)


def smaller(difference):
    """The cases one step smaller: pairs of an origin and a word."""
    origin, word = difference.subject.origin, difference.word
    yield from ((origin, shorter) for shorter in shorter_words(word))
    if isinstance(origin, programs.Program):
        yield from ((program, word) for program in smaller_programs(origin))


def shrink(case, difference):
    """A difference from which nothing can be taken away. A case is a function from an origin and a word to their difference, or None."""
    found = difference
    while found is not None:
        difference = found
        found = next(filter(None, (case(*less) for less in smaller(difference))), None)
    return difference
