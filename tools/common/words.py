"""Lines cut into words, as the program cuts them: by single spaces, a name in double quotes being one word."""


class Word:
    """A word of a line: its place in the line, whether it stands in quotes, and its bytes without them."""

    __slots__ = ('start', 'end', 'quoted', 'body', 'broken')

    def __init__(self, start, end, quoted, body, broken=None):
        self.start = start
        self.end = end
        self.quoted = quoted
        self.body = body
        self.broken = broken

    def text(self):
        """The word as text, with what is no ASCII replaced."""
        return self.body.decode('ascii', 'replace')


def words_of(line):
    """The words of the line. The last is broken where its quotes do not fit, and nothing behind it is cut."""
    words = []
    at = 0
    while True:
        word = word_at(line, at)
        words.append(word)
        if word.broken or word.end == len(line):
            return words
        at = word.end + 1


def word_at(line, at):
    """The word that begins at the place."""
    if line[at:at + 1] != b'"':
        end = line.find(b' ', at)
        end = len(line) if end < 0 else end
        return Word(at, end, False, line[at:end])
    close = line.find(b'"', at + 1)
    if close < 0:
        return Word(at, len(line), True, line[at + 1:], 'the name has no closing quote')
    if close + 1 < len(line) and line[close + 1:close + 2] != b' ':
        end = line.find(b' ', close)
        end = len(line) if end < 0 else end
        return Word(at, end, True, line[at + 1:close], 'behind the closing quote comes neither a space nor the end')
    return Word(at, close + 1, True, line[at + 1:close])
