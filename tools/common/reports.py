"""Reports, read line by line: what each event came to, the journal, and the namespace at the end."""
import io
import re

from common.files import REPORT_BYTES, Failed, read_bytes
from common.texts import shown

# No line of a report is longer: it has at most the names of one input, and a little more.
LINE_BYTES = 33_554_432

OUTCOME = re.compile(r'e([0-9]{1,20}) (-|[cs][0-9]{1,20}) (.*?)(?: sends((?: [0-9]{1,20})+))?')
ITEM = re.compile(r'j([0-9]{1,20}) ([cs][0-9]{1,20}) ([0-9]{1,20}) (.+)')
NODE = re.compile(r'n (/[0-9/]*) (file|dir) ([0-9]{1,20}) ([0-9]{1,20})(?: in (/[0-9/]*) "([^"]*)")?')
HANDLE = re.compile(r'h (/[0-9/]*) (c[0-9]{1,20}) ([0-9]{1,20}) ([RWD]+) ([RWD]+|-)')
DONE = re.compile(r'done events ([0-9]{1,20}) journal ([0-9]{1,20}) nodes ([0-9]{1,20})')
NO_TEXT = re.compile(rb'[^\x20-\x7e]')


class Outcome:
    """What an event came to: its number, its actor or None where nobody acted, the text, and the packets that it sent."""

    __slots__ = ('number', 'actor', 'text', 'sends')

    def __init__(self, number, actor, text, sends):
        self.number = number
        self.actor = actor
        self.text = text
        self.sends = sends

    def whole(self):
        """The line without its number, as the report has it."""
        packets = ''.join(' %d' % packet for packet in self.sends)
        return '%s %s%s' % (self.actor or '-', self.text, ' sends' + packets if packets else '')


class Report:
    """Outcomes, the lines of the journal, and the lines of the namespace."""

    def __init__(self, outcomes, journal, space):
        self.outcomes = outcomes
        self.journal = journal
        self.space = space


class Lines:
    """The lines of a report, one after another: the line, None behind the last one, and its number."""

    def __init__(self, stream, called):
        self.stream = stream
        self.called = called
        self.number = 0
        self.line = None
        self.step()

    def step(self):
        """Goes on to the next line."""
        self.number += 1
        try:
            line = self.stream.readline(LINE_BYTES + 1)
        except OSError as error:
            raise Failed('%s could not be read: %s' % (self.called, error.strerror)) from error
        if line == b'':
            self.line = None
            return
        wrong = NO_TEXT.search(line, 0, len(line) - line.endswith(b'\n'))
        if wrong:
            raise self.fault('byte 0x%02x is no printable ASCII' % wrong.group()[0])
        if len(line) > LINE_BYTES:
            raise self.fault('it has more than %d bytes' % LINE_BYTES)
        self.line = line.decode('ascii').rstrip('\n')

    def take(self):
        """The line; goes on behind it."""
        line = self.line
        self.step()
        return line

    def begins(self, *letters):
        """Whether there is a line that begins with one of these."""
        return self.line is not None and self.line[:1] in letters

    def fault(self, what):
        """The sentence on the line."""
        return Failed('%s is no report: line %d: %s' % (self.called, self.number, what))


def outcomes_of(lines):
    """The outcomes of a report, one after another; the lines stand behind them then."""
    number = 1
    while lines.begins('e'):
        found = OUTCOME.fullmatch(lines.line)
        if found is None or found[1] != str(number):
            raise lines.fault('no outcome of event %d' % number)
        actor = None if found[2] == '-' else found[2]
        yield Outcome(number, actor, found[3], [int(word) for word in (found[4] or '').split()])
        number += 1
        lines.step()
    if lines.line is None and lines.number == 1:
        raise Failed('%s is empty, and no report' % lines.called)
    if lines.line is not None and not lines.begins('j', 'n', 'd'):
        raise lines.fault('no line of a report')


def read_report(path):
    """The report of a file, whole."""
    data = read_bytes(path, REPORT_BYTES)
    if len(data) > REPORT_BYTES:
        raise Failed('%s has more than %d bytes' % (shown(path), REPORT_BYTES))
    return report_in(data, shown(path))


def report_in(data, called):
    """The report that the bytes are the text of: events, journal, namespace, and a last line that counts them."""
    lines = Lines(io.BytesIO(data), called)
    outcomes, journal, space = list(outcomes_of(lines)), [], []
    while lines.begins('j'):
        found = ITEM.fullmatch(lines.line)
        if found is None or found[1] != str(len(journal) + 1):
            raise lines.fault('no item %d of a journal' % (len(journal) + 1))
        journal.append(lines.take())
    while lines.begins('n', 'h'):
        if NODE.fullmatch(lines.line) is None and HANDLE.fullmatch(lines.line) is None:
            raise lines.fault('no line of a namespace')
        space.append(lines.take())
    look_at_end(lines, outcomes, journal, space)
    return Report(outcomes, journal, space)


def look_at_end(lines, outcomes, journal, space):
    """The last line counts what stands before it."""
    done = None if lines.line is None else DONE.fullmatch(lines.line)
    if done is None:
        raise lines.fault('a report ends with a line `done events ..`')
    nodes = sum(line.startswith('n') for line in space)
    for said, there, what in ((done[1], outcomes, 'events'), (done[2], journal, 'items of the journal')):
        if int(said) != len(there):
            raise lines.fault('the last line counts %s %s, and there are %d' % (said, what, len(there)))
    if int(done[3]) != nodes:
        raise lines.fault('the last line counts %s nodes, and there are %d' % (done[3], nodes))
    lines.step()
    if lines.line is not None:
        raise lines.fault('something follows the last line of a report')
