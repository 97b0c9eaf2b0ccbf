"""Runs: a schedule beside its report, and which packet was sent by which event and told by which."""
import io

from common import files, reports
from common.files import Failed
from common.texts import counted, shown

# What a report is called that stands in no file.
OF_PROGRAM = 'what the program wrote'


class Packet:
    """A packet of a run: its sender, the event that sent it, who it came to, and the events that told it, by numbers.

    Overtaken is one that came behind a later one of the same way.
    """

    __slots__ = ('number', 'sender', 'sent_at', 'addressee', 'told_at', 'overtaken')

    def __init__(self, number, sender, sent_at):
        self.number = number
        self.sender = sender
        self.sent_at = sent_at
        self.addressee = None
        self.told_at = []
        self.overtaken = False


class Run:
    """A schedule, its outcomes, its packets; and of each event that is a `tell` its packet, None where it found none.

    Events are counted from 1 and packets from 0, as reports have them.
    """

    def __init__(self, schedule):
        self.schedule = schedule
        self.outcomes = []
        self.packets = []
        self.packet_of = {}
        self.least_untold = 0

    def actors(self):
        """Sessions and then servers, each in order of numbers."""
        seen = {outcome.actor for outcome in self.outcomes if outcome.actor}
        seen.update('s%d' % server for server in range(self.schedule.head.servers))
        return sorted(seen, key=lambda actor: (actor[0], int(actor[1:])))

    def aim(self, packet):
        """The addressee of a packet; of one never told only where there can be no other, else None."""
        if packet.addressee is None and self.schedule.head.servers == 1 and packet.sender[0] == 'c':
            return 's0'
        return packet.addressee

    def untold(self):
        """The packets that nobody told."""
        return [packet for packet in self.packets if not packet.told_at]

    def first_of(self, event):
        """The first packet that the event sent, which sent some."""
        return self.packets[self.outcomes[event - 1].sends[0]]

    def add(self, event, outcome):
        """Takes the next event of the run. Why the outcome is none of it; None where it may be one."""
        packet = self.told_packet(event)
        why = misfit(self.schedule.head, event, outcome, packet)
        if why:
            return why
        if packet:
            packet.addressee = outcome.actor
            packet.told_at.append(event.number)
        for number in outcome.sends:
            if number != len(self.packets):
                return 'event %d sends packet %d, where packet %d is the next' % (
                    event.number, number, len(self.packets))
            self.packets.append(Packet(number, outcome.actor, event.number))
        self.outcomes.append(outcome)
        return None

    def told_packet(self, event):
        """The packet that the event tells, if it is a `tell` and finds one."""
        if event.verb != 'tell':
            return None
        while self.least_untold < len(self.packets) and self.packets[self.least_untold].told_at:
            self.least_untold += 1
        number = self.least_untold if event.packet == 'next' else event.packet
        packet = self.packets[number] if number < len(self.packets) else None
        self.packet_of[event.number] = packet
        return packet

    def mark_overtaken(self):
        """Marks each packet that came behind a later one of the same way."""
        greatest = {}
        for packet in sorted((p for p in self.packets if p.told_at), key=lambda p: p.told_at[0]):
            way = packet.sender, packet.addressee
            packet.overtaken = greatest.get(way, -1) > packet.number
            greatest[way] = max(greatest.get(way, -1), packet.number)


def misfit(head, event, outcome, packet):
    """Why the outcome is none of the event, which tells the packet; None where it may be one."""
    if fits(head, event, outcome, packet):
        return None
    return 'event %d is `%s`, and the report says of it `%s`' % (event.number, event.text, outcome.whole())


def fits(head, event, outcome, packet):
    """Whether the outcome can be one of the event, which tells the packet."""
    if outcome.actor is None:
        return outcome.text == 'nothing' and not outcome.sends and packet is None
    if (event.verb == 'join') != (outcome.text == 'joined'):
        return False
    if event.verb == 'tell':
        return packet is not None and outcome.actor != packet.sender and packet.addressee in (None, outcome.actor)
    if head.is_direct() and event.verb == 'do' and not outcome.text.startswith('answered '):
        return False
    return outcome.actor == event.actor()


def run_of(schedule, outcomes, called):
    """The run of the schedule with these outcomes; `called` is what the report is called."""
    run, outcomes = Run(schedule), iter(outcomes)
    for event in schedule.events:
        outcome = next(outcomes, None)
        why = 'it ends before event %d' % event.number if outcome is None else run.add(event, outcome)
        if why:
            raise Failed('%s is no report of this schedule: %s' % (called, why))
    if next(outcomes, None) is not None:
        raise Failed('%s is no report of this schedule: it has more than %s' % (
            called, counted(len(schedule.events), 'event')))
    run.mark_overtaken()
    return run


def run_in(schedule, stream, called):
    """The run of the schedule, from the lines of its report; what stands behind the events is not read."""
    return run_of(schedule, reports.outcomes_of(reports.Lines(stream, called)), called)


def run_from(schedule, path):
    """The run of the schedule, from a file that is its report."""
    with files.opened(path) as stream:
        return run_in(schedule, stream, shown(path))


def run_by(command, schedule, data):
    """The run of the schedule, whose bytes these are, by the program."""
    return run_in(schedule, io.BytesIO(files.report_of(command, data)), OF_PROGRAM)
