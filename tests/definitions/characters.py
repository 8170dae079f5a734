"""Characters: which are letters and marks, which are capitals, and what a capital is in small letters."""

import unicodedata

# Python does not tell which marks are Alphabetic. Of the marks that the random dictionaries use, these are.
ALPHABETIC_MARKS = '\u0903'


def is_upper(character):
    """Whether it has Unicode's property Uppercase."""
    return character.isupper()


def is_lower(character):
    """Whether it has Unicode's property Lowercase."""
    return character.islower()


def low(character):
    """The simple case folding of an upper-case character. Any other character stays."""
    if not is_upper(character):
        return character
    folded = character.casefold()
    if len(folded) == 1:
        return folded
    # Python folds these to two characters. Simple folding gives one for the capital sharp s, and leaves the dotted I as it is.
    return 'ß' if character == 'ẞ' else character


def lowered(text):
    """The text with each character lowered."""
    return ''.join(low(character) for character in text)


def holds_lower(text):
    """Whether some character is lower case."""
    return any(is_lower(character) for character in text)


def begins_upper(text):
    """Whether the first character is upper case."""
    return text != '' and is_upper(text[0])


def is_letter(character):
    """Whether it has Unicode's property Alphabetic."""
    return (is_upper(character) or is_lower(character) or character in ALPHABETIC_MARKS
            or unicodedata.category(character) in ('Lu', 'Ll', 'Lt', 'Lm', 'Lo', 'Nl'))


def is_mark(character):
    """Whether it is a combining mark."""
    return unicodedata.category(character) in ('Mn', 'Mc', 'Me')
