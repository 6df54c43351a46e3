"""Words by the rule of docs/SEARCH.md, for texts of scripts whose words are runs of letters, as Latin, Greek and
Cyrillic ones are. It knows nothing of the program."""

import unicodedata

APOSTROPHES = "'\u2019\uff07"


def is_mark(letter):
    return unicodedata.category(letter)[0] == "M"


def kind(letter):
    """What an apostrophe looks at: whether a character is a letter, a digit, or something else."""
    category = unicodedata.category(letter)
    return "letter" if category[0] == "L" else "digit" if category == "Nd" else None


def neighbour(letters):
    """The kind of the first of these that is no mark."""
    return next((kind(letter) for letter in letters if not is_mark(letter)), None)


def is_inside(text, at):
    """Whether a character belongs to a word: an apostrophe does between two letters or two digits."""
    if text[at] in APOSTROPHES:
        before = neighbour(reversed(text[:at]))
        return before is not None and before == neighbour(text[at + 1 :])
    return is_mark(text[at]) or kind(text[at]) is not None


def pieces(text):
    """The words of a text as they stand there, each with how many characters stand before it."""
    begin = None
    for at in range(len(text) + 1):
        if at < len(text) and is_inside(text, at):
            begin = at if begin is None else begin
        elif begin is not None:
            if any(kind(letter) for letter in text[begin:at]):
                yield begin, text[begin:at]
            begin = None


def folded(word, keeps_accents=False):
    """A word as it is compared."""
    apart = unicodedata.normalize("NFD", word.casefold())
    if not keeps_accents:
        apart = "".join(letter for letter in apart if not "\u0300" <= letter <= "\u036f")
    return unicodedata.normalize("NFC", apart)


def words(text, keeps_accents=False):
    """The words of a text, folded."""
    return [word for _, piece in pieces(text) if (word := folded(piece, keeps_accents))]
