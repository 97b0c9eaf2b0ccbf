"""Tests of tools/shrink."""
import io
import os
import sys
import tempfile
import unittest
from unittest import mock

import toy
import trying
from common import files, grammar, runs
from common.random_numbers import Random

shrink = trying.module('shrink')


class Fails:
    """A command of Python's: it fails where a test on the schedule's text says so."""

    def __init__(self, test):
        self.test = test
        self.runs = 0

    def on(self, text):
        self.runs += 1
        return self.test(text)


def shrunk(data, test, exact=True):
    """What is left of a schedule, with the toy in place of the program."""
    schedule = grammar.read_schedule(data)
    run = None
    if not schedule.head.is_direct():
        run = runs.run_in(schedule, io.BytesIO(toy.report_of(data)), 'the report')
    numbers = shrink.Numbers(['toy'] if exact else None, run)
    shrinker = shrink.Shrinker(data, shrink.pieces_of(schedule, run), schedule.head, numbers, Fails(test))
    with mock.patch.object(files, 'report_of', lambda command, text: toy.report_of(text)), \
            mock.patch.object(shrink, 'say', lambda text: None):
        shrinker.shrink()
    return shrinker.text.decode()


def long_schedule():
    """A schedule with many sessions and servers, in which the toy's fault comes."""
    random = Random(7)
    lines = ['farsite 1 servers 3 skew 10 term 100', '0 join c1', '0 join c2', '1 join c5']
    for at in range(200):
        session = random.choice((1, 2, 5))
        what = random.weighted({'do c%d lookup / "a"' % session: 40, 'tell next': 40, 'tell %d' % random.below(40): 10,
                                'do c5 create / "bug" file': 5, 'turn s1': 5})
        lines.append('%d %s' % (at // 10 + 2, what))
    return ('\n'.join(lines) + '\n').encode()


class Shrunk(unittest.TestCase):
    SHORT = ('farsite 1 servers 1 skew 10 term 100\n0 join c1\n0 do c1 create / "bug" file\n0 tell 0\n0 tell 1\n')

    def test_a_long_run_becomes_a_short_case(self):
        data = long_schedule()
        self.assertIn(b'strange', toy.report_of(data))
        for exact in (True, False):
            self.assertEqual(shrunk(data, lambda text: b'strange' in toy.report_of(text), exact), self.SHORT)

    def test_numbers_follow_their_packets(self):
        """The second packet of session 2 stays the one that is told, whatever goes before it."""
        data = ('farsite 1 servers 1 skew 0 term 1\n0 join c1\n0 join c2\n0 do c1 kind /\n0 tell 0\n0 tell 1\n'
                '0 do c2 create / "bug" file\n0 do c1 kind /\n0 tell 2\n0 tell 4\n').encode()
        self.assertIn(b'strange', toy.report_of(data))
        left = shrunk(data, lambda text: b'c2 strange' in toy.report_of(text) or b'c1 strange' in toy.report_of(text))
        self.assertTrue(left.endswith('0 join c1\n0 do c1 create / "bug" file\n0 tell 0\n0 tell 1\n'), left)

    def test_time_that_a_fault_needs_stays(self):
        data = b'farsite 1 direct\n5 join c1\n9 join c2\n30 do c2 kind /\n'

        def is_late(text):
            events = grammar.read_schedule(text).events
            return len(events) > 1 and events[-1].reading >= events[0].reading + 7

        self.assertEqual(shrunk(data, is_late), 'farsite 1 direct\n0 join c1\n7 do c1 kind /\n')

    def test_clocks_stay_within_the_skew(self):
        data = (b'farsite 1 servers 1 skew 5 term 9\n20 join c1\n15 do c1 create / "bug" file\n18 tell 0\n16 tell 1\n')
        left = shrunk(data, lambda text: b'strange' in toy.report_of(text) and b'\n0' not in text)
        self.assertEqual(len(grammar.read_schedule(left.encode()).events), 4)

    def test_examples(self):
        """With their own reports, and a fault that one line alone is."""
        for path, report in trying.examples():
            data = trying.bytes_of(path)
            schedule = grammar.read_schedule(data)
            run = None
            if not schedule.head.is_direct():
                run = runs.run_in(schedule, io.BytesIO(trying.bytes_of(report)), report)
            shrinker = shrink.Shrinker(data, shrink.pieces_of(schedule, run), schedule.head,
                                       shrink.Numbers(None, run), Fails(lambda text: b'create' in text))
            with mock.patch.object(shrink, 'say', lambda text: None):
                shrinker.shrink()
            self.assertEqual(shrinker.text.count(b'\n'), 2, path)
            grammar.read_schedule(shrinker.text)


class Called(unittest.TestCase):
    def setUp(self):
        folder = tempfile.TemporaryDirectory()
        self.addCleanup(folder.cleanup)
        self.path = os.path.join(folder.name, 'a.schedule')
        self.write(b'farsite 1 direct\n0 join c1\n0 do c1 list /\n0 do c1 kind /\n')

    def write(self, data):
        with open(self.path, 'wb') as file:
            file.write(data)

    def shrunk(self, *words):
        status, output, errors = trying.tool('shrink', *words)
        self.assertNotIn('Traceback', errors)
        return status, output, errors

    def test_a_command(self):
        status, output, _ = self.shrunk(self.path, 'sh', '-c', '! grep -q list "$1"', 'x')
        self.assertEqual((status, output), (0, 'farsite 1 direct\n0 do c1 list /\n'))

    def test_a_command_that_does_not_fail(self):
        self.assertEqual(self.shrunk(self.path, 'true')[0], 1)

    def test_what_cannot_be_done(self):
        for words, said in (([self.path, './no-such-command'], 'could not be started'),
                            ([self.path, 'sh', '-c', 'no-such-command-at-all'], 'could not be run'),
                            ([self.path], 'a COMMAND is wanting'),
                            ([self.path, '--report', 'x', 'false'], '--report stands before SCHEDULE'),
                            (['no-such-file', 'false'], 'could not be read')):
            status, output, errors = self.shrunk(*words)
            self.assertEqual((status, output), (2, ''), words)
            self.assertIn(said, errors)

    def test_hostile_schedules(self):
        for data in (bytes(range(256)), b'', b'farsite 1 direct\r\n'):
            self.write(data)
            status, _, errors = self.shrunk(self.path, 'false')
            self.assertEqual(status, 2)
            self.assertIn('is not in the grammar', errors)
        with open(self.path, 'wb') as file:
            file.truncate(2**30)
        self.assertIn('more than 16777216 bytes', self.shrunk(self.path, 'false')[2])

    def test_a_report_of_another_schedule(self):
        pairs = {os.path.basename(path): (path, report) for path, report in trying.examples()}
        status, _, errors = self.shrunk('--report', pairs['sharing.schedule'][1], pairs['leases.schedule'][0], 'false')
        self.assertEqual(status, 2)
        self.assertIn('is no report of this schedule', errors)

    def test_a_program_that_is_none(self):
        self.write(b'farsite 1 servers 1 skew 0 term 1\n0 join c1\n')
        status, _, errors = self.shrunk('--program', sys.executable + '-not-there', self.path, 'false')
        self.assertEqual(status, 2)
        self.assertIn('could not be started', errors)


if __name__ == '__main__':
    unittest.main()
