"""The grammar of schedules as `crates/fs_schedule` has it: read word by word, so that the first word that does not fit is known.

What a text is refused for, and at which line, is what the program says of it; the tests hold the two together.
"""
import re

from common import operands
from common.files import INPUT_BYTES, Failed, read_input
from common.operands import Unfit
from common.texts import shown
from common.words import words_of

LINE_BYTES = 4_096
EVENTS = 65_536

OPERATIONS = ('lookup', 'list', 'kind', 'info', 'create', 'open', 'close', 'set', 'delete', 'rename')
EVENT_WORDS = ('join', 'do', 'tell', 'turn', 'recall', 'move')
DIRECT_EVENT_WORDS = ('join', 'do')
FIELDS = ('life', 'child', 'names', 'info', 'self', 'other')

# Of each word of a line: what it is called, and what could stand there.
READING = 'a reading: a number from 0 to %d' % operands.READINGS
SESSION = 'a session: `c1` to `c%d`' % operands.SESSIONS
ID = 'an identifier: `/` for the root, or as `/1/3`, of 1 to 32 numbers from 1 to 4294967295'
NAME = 'a name in double quotes: 1 to 255 printable ASCII characters, none of \\ / : * ? " < > |'
HANDLE = "a handle's number: 0 to 4294967295"
U64_NUMBER = 'a number from 0 to 18446744073709551615'
KIND = '`file` or `dir`'
ACCESSES = 'accesses: `R`, `W`, `D`, `RW`, `RD`, `WD` or `RWD`'
DENIALS = 'denials: `R`, `W`, `D`, `RW`, `RD`, `WD`, `RWD`, or `-` for none'
MODE = 'a mode: `aR`, `aW`, `aD`, `dR`, `dW` or `dD`'
PACKET = "a packet's number, counted from 0, or `next`"

BOMS = ((b'\xef\xbb\xbf', 'UTF-8'), (b'\xff\xfe', 'UTF-16'), (b'\xfe\xff', 'UTF-16'))


class Head:
    """The form of a schedule: how many servers, none in the direct form, their skew and the term of leases."""

    def __init__(self, servers, skew=0, term=0):
        self.servers = servers
        self.skew = skew
        self.term = term

    def is_direct(self):
        return self.servers == 0

    def line(self):
        """The first line of a schedule of the form."""
        if self.is_direct():
            return 'farsite 1 direct'
        return 'farsite 1 servers %d skew %d term %d' % (self.servers, self.skew, self.term)


class Event:
    """An event: its number, reading and first word, its session or server, the packet of a `tell`, where a `move` goes.

    Events are counted from 1, as reports have them, and event K stands in line K + 1. `text` is the line behind the reading.
    """

    __slots__ = ('number', 'reading', 'verb', 'session', 'server', 'packet', 'to', 'text')

    def __init__(self, reading, verb):
        self.number = None
        self.reading = reading
        self.verb = verb
        self.session = None
        self.server = None
        self.packet = None
        self.to = None
        self.text = None

    def actor(self):
        """The session or the server of the line, as text; None for a `tell`."""
        if self.session is not None:
            return 'c%d' % self.session
        return None if self.server is None else 's%d' % self.server


class Schedule:
    """A form and its events."""

    def __init__(self, head, events):
        self.head = head
        self.events = events


class Fault(Exception):
    """Why a text is no schedule: the program's sentence, the place, what is wrong there and what could stand there."""

    def __init__(self, sentence, line=None, start=0, end=0, problem=None, expected=None, hint=None, earlier=None):
        super().__init__(sentence)
        self.sentence = sentence
        self.line = line
        self.start = start
        self.end = end
        self.problem = problem
        self.expected = expected
        self.hint = hint
        self.earlier = earlier


class WordFault(Exception):
    """The first word of a line that does not fit."""

    def __init__(self, start, end, problem, expected, hint=None):
        super().__init__(problem)
        self.start = start
        self.end = end
        self.problem = problem
        self.expected = expected
        self.hint = hint


class Walk:
    """The words of a line, taken one after another."""

    def __init__(self, line):
        self.line = line
        self.words = words_of(line)
        self.taken = 0

    def take(self, expected, read):
        """The value of the next word, which is to be what is expected."""
        if self.taken == len(self.words):
            end = len(self.line)
            raise WordFault(end, end + 1, 'the line ends here, and a word is missing', expected)
        word = self.words[self.taken]
        self.taken += 1
        try:
            if word.broken:
                raise Unfit(word.broken)
            return read(word)
        except Unfit as unfit:
            is_last = self.taken == len(self.words)
            raise plain_fault(self.line, word, is_last, expected) or WordFault(
                word.start, word.end, unfit.problem + no_text(word), expected, unfit.hint) from unfit

    def end(self, whole):
        """Nothing may follow what was read, which is this."""
        if self.taken < len(self.words):
            word = self.words[self.taken]
            raise plain_fault(self.line, word, self.taken + 1 == len(self.words), 'the end of the line') or WordFault(
                word.start, len(self.line), '%s ends before this word' % whole, 'the end of the line')


def no_text(word):
    """What more is said of a word with bytes that are no text; of a name it is said already."""
    found = None if word.quoted else re.search(rb'[^\x20-\x7e]', word.body)
    return '; its byte 0x%02x is no printable ASCII' % found.group()[0] if found else ''


def plain_fault(line, word, is_last, expected):
    """A fault of the line's form, and not of what its word says: spaces, tabs, line ends."""
    if line == b'\r':
        return WordFault(0, 1, 'the line is empty but for a carriage return', expected, 'no line may be empty')
    if is_last and line.endswith(b'\r') and word.end == len(line):
        return WordFault(len(line) - 1, len(line), 'the line ends in a carriage return, as files of Windows do',
                         'a line feed alone', "take them away with: tr -d '\\r' < FILE")
    if word.quoted:
        return None
    if word.body == b'' and line:
        return space_fault(line, word, expected)
    if b'\t' in word.body:
        at = word.start + word.body.index(b'\t')
        return WordFault(at, at + 1, 'a tab parts no words', 'one space')
    if word.start == 0 and word.body[:1] in (b'#', b'%') or word.body[:2] == b'//':
        return WordFault(word.start, len(line), 'there are no comments', expected)
    return None


def space_fault(line, word, expected):
    """The fault of an empty word: a space too many."""
    if word.start == 0:
        return WordFault(0, 1, 'the line begins with a space', expected, 'leave it out')
    problem = 'the line ends in a space' if word.start == len(line) else 'two spaces follow one another'
    return WordFault(word.start - 1, max(word.start, word.end), problem, expected, 'leave one out'
                     if word.start < len(line) else 'leave it out')


def head_at(line):
    """The form that the first line names."""
    for mark, coding in BOMS:
        if line.startswith(mark):
            raise WordFault(0, len(mark), 'a byte order mark of %s stands before the first word' % coding, '`farsite`',
                            'save the file without it, as plain ASCII')
    walk = Walk(line)
    walk.take('`farsite`', operands.choice(('farsite',), 'first word of a schedule'))
    walk.take('`1`, the version', operands.choice(('1',), 'version that there is'))
    form = walk.take('`direct` or `servers`', operands.choice(('direct', 'servers'), 'form'))
    if form == 'direct':
        walk.end('a first line of the direct form')
        return Head(0)
    servers = walk.take('the number of servers: 1 to 15', operands.servers_number)
    walk.take('`skew`', operands.choice(('skew',), 'word of the first line here'))
    skew = walk.take('the skew in milliseconds: 0 to %d' % operands.DURATIONS,
                     operands.numbered(0, operands.DURATIONS, 'a skew'))
    walk.take('`term`', operands.choice(('term',), 'word of the first line here'))
    term = walk.take('the term in milliseconds: 1 to %d' % operands.DURATIONS,
                     operands.numbered(1, operands.DURATIONS, 'a term'))
    walk.end('a first line of the servers form')
    return Head(servers, skew, term)


def listed(names):
    """Words, as a reader sees them."""
    return ', '.join('`%s`' % name for name in names)


def event_at(head, line):
    """The event of a line, in the form. A session above the limit is one more than the limit."""
    walk = Walk(line)
    value = walk.take(READING, operands.reading)
    event = Event(value, walk.take(*verb_wanted(head)))
    EVENT_READERS[event.verb](head, walk, event)
    event.text = line[walk.words[0].end + 1:].decode('ascii')
    return event


def verb_wanted(head):
    """What the first word of an event is to be."""
    if not head.is_direct():
        return 'an event: one of %s' % listed(EVENT_WORDS), operands.choice(EVENT_WORDS, 'event')
    elsewhere = [(word, 'the direct form has no `%s`: its first line would have to name servers' % word)
                 for word in EVENT_WORDS if word not in DIRECT_EVENT_WORDS]
    return ('an event of the direct form: one of %s' % listed(DIRECT_EVENT_WORDS),
            operands.choice(DIRECT_EVENT_WORDS, 'event', elsewhere))


def server_wanted(head):
    """What a server is to be in the form."""
    return 'a server: %s' % operands.servers_listed(head.servers), operands.server(head.servers)


def read_join(_head, walk, event):
    event.session = walk.take(SESSION, operands.session)
    walk.end('a `join`')


def read_do(_head, walk, event):
    event.session = walk.take(SESSION, operands.session)
    operation = walk.take('an operation: one of %s' % listed(OPERATIONS), operands.choice(OPERATIONS, 'operation'))
    for expected, read in OPERATION_OPERANDS[operation]:
        walk.take(expected, read)
    walk.end('a `%s`' % operation)


def read_tell(_head, walk, event):
    event.packet = walk.take(PACKET, operands.packet)
    walk.end('a `tell`')


def read_turn(head, walk, event):
    expected = '%s; or %s' % (SESSION, server_wanted(head)[0])
    event.session, event.server = walk.take(expected, operands.actor(head.servers))
    walk.end('a `turn`')


def read_recall(head, walk, event):
    event.server = walk.take(*server_wanted(head))
    field = walk.take('a field: one of %s' % listed(FIELDS), operands.choice(FIELDS, 'field', [
        ('own', 'a lease on `own` stands in nobody\'s way, and is never recalled')]))
    for expected, read in FIELD_OPERANDS[field]:
        walk.take(expected, read)
    walk.end('a field `%s`' % field)


def read_move(head, walk, event):
    event.server = walk.take(*server_wanted(head))
    walk.take(ID, operands.identifier)
    event.to = walk.take(*server_wanted(head))
    walk.end('a `move`')


EVENT_READERS = {'join': read_join, 'do': read_do, 'tell': read_tell, 'turn': read_turn, 'recall': read_recall,
                 'move': read_move}

AN_ID = (ID, operands.identifier)
A_NAME = (NAME, operands.name)
A_HANDLE = (HANDLE, operands.numbered(0, operands.U32, "a handle's number"))
OPERATION_OPERANDS = {
    'lookup': [AN_ID, A_NAME],
    'list': [AN_ID],
    'kind': [AN_ID],
    'info': [AN_ID],
    'create': [AN_ID, A_NAME, (KIND, operands.choice(('file', 'dir'), 'kind'))],
    'open': [AN_ID, A_HANDLE, (ACCESSES, operands.letters(False)), (DENIALS, operands.letters(True))],
    'close': [AN_ID, A_HANDLE],
    'set': [AN_ID, A_HANDLE, ('a size: %s' % U64_NUMBER, operands.numbered(0, operands.U64, 'a size')),
            ('a stamp: %s' % U64_NUMBER, operands.numbered(0, operands.U64, 'a stamp'))],
    'delete': [AN_ID, A_NAME],
    'rename': [AN_ID, A_NAME, AN_ID, A_NAME],
}
A_MODE = (MODE, operands.choice(operands.MODES, 'mode'))
FIELD_OPERANDS = {'life': [AN_ID], 'child': [AN_ID, A_NAME], 'names': [AN_ID], 'info': [AN_ID],
                  'self': [AN_ID, A_MODE], 'other': [AN_ID, A_MODE]}


def read_file(path):
    """The bytes of a file and the schedule that they are the text of; else a sentence, for tools that do not explain."""
    data = read_input(path)
    try:
        return data, read_schedule(data)
    except Fault as fault:
        if fault.problem is None:
            raise Failed('%s: %s' % (shown(path), fault)) from fault
        raise Failed('%s: %s: %s; tools/explain says more' % (shown(path), fault, fault.problem)) from fault


def read_schedule(data):
    """The schedule that the bytes are the text of; else a Fault, of the first line that the program refuses."""
    if len(data) > INPUT_BYTES:
        raise Fault('the input has more than %d bytes' % INPUT_BYTES)
    lines = lines_of(data)
    head = first_line(*next(lines))
    events = []
    for at, (line, is_last) in enumerate(lines, 2):
        events.append(later_line(head, at, line, is_last))
    look_at_readings(head, events)
    return Schedule(head, events)


def lines_of(data):
    """The lines, each with whether it is the last. The last one may lack its line feed."""
    at = 0
    while True:
        end = data.find(b'\n', at)
        if end < 0 or end + 1 == len(data):
            yield data[at:len(data) if end < 0 else end], True
            return
        yield data[at:end], False
        at = end + 1


def first_line(line, is_last):
    """The form, from the first line."""
    look_at_length(1, line)
    try:
        head = head_at(line)
    except WordFault as fault:
        if line == b'':
            raise empty_line(1, is_last) from fault
        raise outside(1, fault) from fault
    if head.servers > operands.SERVERS:
        word = words_of(line)[3]
        raise Fault('line 1 passes the limit of servers', 1, word.start, word.end, 'these are too many servers',
                    'a number from 1 to %d' % operands.SERVERS)
    return head


def later_line(head, at, line, is_last):
    """The event of a line behind the first."""
    look_at_length(at, line)
    try:
        event = event_at(head, line)
    except WordFault as fault:
        if line == b'':
            raise empty_line(at, is_last) from fault
        raise outside(at, fault) from fault
    if event.session is not None and event.session > operands.SESSIONS:
        word = words_of(line)[2]
        raise Fault('line %d passes the limit of sessions' % at, at, word.start, word.end,
                    "a session's number is at most %d" % operands.SESSIONS, SESSION)
    event.number = at - 1
    if event.number > EVENTS:
        raise Fault('line %d passes the limit of events' % at, at, 0, len(line),
                    '%d events stand before it already' % EVENTS, 'the end of the schedule')
    return event


def look_at_length(at, line):
    if len(line) > LINE_BYTES:
        raise Fault('line %d passes the limit of bytes' % at, at, LINE_BYTES, LINE_BYTES + 1,
                    'the line has %d bytes, and %d is the most; the first one too many is marked' % (
                        len(line), LINE_BYTES), None)


def outside(at, fault):
    return Fault('line %d is not in the grammar' % at, at, fault.start, fault.end, fault.problem, fault.expected,
                 fault.hint)


def empty_line(at, is_last):
    """The fault of a line of no bytes."""
    sentence = 'line %d is not in the grammar' % at
    if at == 1 and is_last:
        return Fault(sentence, 1, 0, 1, 'the input is empty', '`farsite 1 direct`, or `farsite 1 servers N skew K term T`')
    if is_last:
        return Fault(sentence, at, 0, 1, 'the last line is empty: the text ends in two line feeds',
                     'the end of the input, or an event', 'end the file with one line feed')
    return Fault(sentence, at, 0, 1, 'the line is empty',
                 READING if at > 1 else '`farsite`', 'no line may be empty; leave it out')


def look_at_readings(head, events):
    """No reading may be more than the skew below an earlier one, in the servers form."""
    if head.is_direct():
        return
    greatest = 0
    for at, event in enumerate(events):
        if greatest > event.reading + head.skew:
            earlier = next(k for k in range(at) if events[k].reading > event.reading + head.skew)
            raise Fault('line %d is more than the skew before line %d' % (at + 2, earlier + 2), at + 2, 0,
                        len(str(event.reading)),
                        'this reading is %d, line %d reads %d, and the skew is %d' % (
                            event.reading, earlier + 2, events[earlier].reading, head.skew),
                        'a reading from %d on' % (greatest - head.skew), None, earlier + 2)
        greatest = max(greatest, event.reading)
