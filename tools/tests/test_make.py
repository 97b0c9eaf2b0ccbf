"""Tests of tools/make."""
import io
import unittest
from unittest import mock

import toy
import trying
from common import files, grammar, runs
from common.random_numbers import Random

make = trying.module('make')


def made(seed, events, servers=2, sessions=3, command=None):
    """A schedule, as bytes."""
    head = grammar.Head(servers, 10, 1000) if servers else grammar.Head(0)
    maker = make.Maker(Random(seed), head, sessions, make.Packets(command, events))
    maker.make(events)
    return maker.text()


class Made(unittest.TestCase):
    def test_the_random_numbers_are_those_of_splitmix64(self):
        self.assertEqual(Random(0).next(), 0xE220A8397B1DCDAF)

    def test_every_schedule_is_in_the_grammar(self):
        for seed in range(60):
            servers = seed % 5
            data = made(seed, 10 * seed, servers, 1 + seed % 7)
            schedule = grammar.read_schedule(data)
            self.assertEqual((len(schedule.events), schedule.head.servers), (10 * seed, servers))

    def test_the_greatest_is_in_the_grammar(self):
        self.assertEqual(len(grammar.read_schedule(made(1, grammar.EVENTS, 15, 1000)).events), grammar.EVENTS)

    def test_a_seed_gives_one_schedule_and_another_seed_another(self):
        self.assertEqual(made(7, 200), made(7, 200))
        self.assertNotEqual(made(7, 200), made(8, 200))

    def test_both_forms_have_all_that_they_can(self):
        schedule = grammar.read_schedule(made(3, 2000, 3))
        self.assertEqual({event.verb for event in schedule.events}, set(grammar.EVENT_WORDS))
        readings = [event.reading for event in schedule.events]
        self.assertTrue(any(later < earlier for earlier, later in zip(readings, readings[1:])))
        direct = grammar.read_schedule(made(3, 2000, 0))
        self.assertEqual({event.text.split(' ')[2] for event in direct.events if event.verb == 'do'},
                         set(grammar.OPERATIONS))

    def test_with_a_program_every_tell_names_a_packet_that_was_sent(self):
        with mock.patch.object(files, 'report_of', lambda command, data: toy.report_of(data)):
            data = made(6, 400, command=['toy'])
        schedule = grammar.read_schedule(data)
        run = runs.run_in(schedule, io.BytesIO(toy.report_of(data)), 'the report')
        self.assertNotIn(None, run.packet_of.values())
        self.assertTrue(any(len(packet.told_at) > 1 for packet in run.packets))
        self.assertTrue(any(not packet.told_at for packet in run.packets[:-20]))
        first = [packet.told_at[0] for packet in run.packets if packet.told_at]
        self.assertNotEqual(first, sorted(first))


class Called(unittest.TestCase):
    def test_words(self):
        status, output, errors = trying.tool('make', '1', '20', '--servers', '1')
        self.assertEqual((status, output.encode(), errors), (0, made(1, 20, 1), ''))
        for words in (['x', '3'], ['1', '65537'], ['-1', '3'], ['1', '9' * 5000], ['1', '3', '--servers', '16']):
            status, output, errors = trying.tool('make', *words)
            self.assertEqual((status, output), (2, ''))
            self.assertNotIn('Traceback', errors)


if __name__ == '__main__':
    unittest.main()
