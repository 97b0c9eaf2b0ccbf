"""What the tools say, in words that no terminal takes amiss."""


def shown(path):
    """A path as text, with what cannot be seen or is no text in place of itself."""
    return ''.join(letter if letter.isprintable() else letter.encode('unicode_escape').decode('ascii')
                   for letter in str(path))


def counted(count, what):
    """A number with its word."""
    return '%d %s%s' % (count, what, '' if count == 1 else 's')
