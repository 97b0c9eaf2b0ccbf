#!/usr/bin/env python3
"""A toy in place of the program, for tests of the tools: sessions ask `s0`, it answers, and nothing else happens.

`toy.py replay` reads a schedule and writes the `e` lines of a report. A `do` sends one packet where no other is under way,
a packet told to `s0` is answered once, and a packet told to a session ends what is under way. An answer that comes to a `do` of
`create / "bug" file` is a fault: it says `strange`.
"""
import os
import sys

sys.dont_write_bytecode = True
sys.path.insert(0, os.path.dirname(os.path.dirname(os.path.abspath(__file__))))
from common import grammar  # noqa: E402


def report_of(data):
    """The `e` lines of the toy's report, and its last line."""
    schedule = grammar.read_schedule(data)
    toy = Toy()
    lines = []
    for number, event in enumerate(schedule.events, 1):
        who, text, sent = toy.step(event)
        sends = ' sends %s' % ' '.join(map(str, sent)) if sent else ''
        lines.append('e%d %s %s%s' % (number, who, text, sends))
    lines.append('done events %d journal 0 nodes 1' % len(schedule.events))
    return ('\n'.join(lines) + '\n').encode('ascii')


def main():
    if sys.argv[1:] != ['replay']:
        sys.exit('farsite: word 1 is not understood')
    try:
        sys.stdout.buffer.write(report_of(sys.stdin.buffer.read()))
    except grammar.Fault as fault:
        print('farsite: %s' % fault, file=sys.stderr)
        sys.exit(6 if fault.line is None else 3)


class Toy:
    def __init__(self):
        self.packets = []
        self.told = set()
        self.under_way = {}

    def step(self, event):
        if event.verb == 'join' and event.session not in self.under_way:
            self.under_way[event.session] = None
            return 'c%d' % event.session, 'joined', []
        if event.verb == 'tell':
            return self.tell(event.packet)
        if event.verb == 'do' and event.session in self.under_way:
            return self.do(event.session, event.text)
        if event.verb in ('turn', 'recall', 'move') and event.session is None:
            return 's%d' % event.server, 'idle', []
        if event.verb == 'turn' and event.session in self.under_way:
            return 'c%d' % event.session, 'idle', []
        return '-', 'nothing', []

    def send(self, to, session):
        self.packets.append((to, session))
        return [len(self.packets) - 1]

    def do(self, session, text):
        if self.under_way[session] is not None:
            return 'c%d' % session, 'busy exchange', []
        self.under_way[session] = text
        return 'c%d' % session, 'asked s0 life / shared', self.send('s0', session)

    def tell(self, packet):
        if packet == 'next':
            packet = min(set(range(len(self.packets))) - self.told, default=len(self.packets))
        if packet >= len(self.packets):
            return '-', 'nothing', []
        again = packet in self.told
        self.told.add(packet)
        to, session = self.packets[packet]
        if to == 's0':
            return 's0', 'none' if again else 'grants 1 all', [] if again else self.send('c', session)
        asked, self.under_way[session] = self.under_way[session], None
        if asked and asked.endswith('create / "bug" file'):
            return 'c%d' % session, 'strange', []
        return 'c%d' % session, 'granted 1 all', []


if __name__ == '__main__':
    main()
