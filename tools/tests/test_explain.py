"""Tests of tools/explain and of the reader that the tools share."""
import functools
import io
import os
import re
import subprocess
import tempfile
import unittest

import trying
from common import files, grammar, operands, runs
from common.random_numbers import Random

explain = trying.module('explain')

HEAD = 'farsite 1 servers 2 skew 10 term 100\n'
DIRECT = 'farsite 1 direct\n'
# A text, the line that is refused, the part of it that is marked, and words of what is said.
FAULTS = [
    (b'', 1, b'', 'the input is empty'),
    (b'farsite 1 direct\r\n0 join c1\r\n', 1, b'\r', 'carriage return'),
    (b'\xef\xbb\xbffarsite 1 direct\n', 1, b'\xef\xbb\xbf', 'byte order mark of UTF-8'),
    (b'farsite 2 direct\n', 1, b'2', 'version'),
    (b'farsite 1 Direct\n', 1, b'Direct', 'perhaps: direct'),
    (b'farsite 1 servers 0 skew 10 term 100', 1, b'0', 'counted from 1'),
    (b'farsite 1 servers 16 skew 10 term 100', 1, b'16', 'too many servers'),
    (b'farsite 1 servers 1 skew 10 term 0', 1, b'0', 'at least 1'),
    (DIRECT + '0 join c1\n\n', 3, b'', 'two line feeds'),
    (DIRECT + '\n0 join c1\n', 2, b'', 'leave it out'),
    (DIRECT + '0 join c1 \n', 2, b' ', 'ends in a space'),
    (DIRECT + '0  join c1\n', 2, b' ', 'two spaces'),
    (DIRECT + '0\tjoin c1\n', 2, b'\t', 'a tab'),
    (DIRECT + '# a comment\n', 2, b'# a comment', 'no comments'),
    (DIRECT + 'join c1\n', 2, b'join', 'a reading comes before'),
    (DIRECT + '007 join c1\n', 2, b'007', 'leading zero'),
    (DIRECT + '-7 join c1\n', 2, b'-7', 'no sign'),
    (DIRECT + '1000000000000001 join c1\n', 2, b'1000000000000001', 'at most 1000000000000000'),
    (DIRECT + '0 join 1\n', 2, b'1', 'perhaps: c1'),
    (DIRECT + '0 join c1001\n', 2, b'c1001', 'at most 1000'),
    (DIRECT + '0 tell 3\n', 2, b'tell', 'the direct form has no `tell`'),
    (DIRECT + '0 do c1 crate / "a" dir\n', 2, b'crate', 'perhaps: create'),
    (DIRECT + '0 do c1 create / a dir\n', 2, b'a', 'perhaps: "a"'),
    (DIRECT + '0 do c1 create / "a dir\n', 2, b'"a dir', 'no closing quote'),
    (DIRECT + '0 do c1 create / "a:b" dir\n', 2, b'"a:b"', 'the character :'),
    (DIRECT + '0 do c1 create / ".." dir\n', 2, b'".."', 'is no name'),
    (DIRECT + '0 do c1 create /a "b" dir\n', 2, b'/a', 'made of numbers'),
    (DIRECT + '0 do c1 create /1/ "b" dir\n', 2, b'/1/', 'perhaps: /1'),
    (DIRECT + '0 do c1 create /0 "b" dir\n', 2, b'/0', 'at least 1'),
    (DIRECT + '0 do c1 create / "b" dir dir\n', 2, b'dir', 'ends before this word'),
    (DIRECT + '0 do c1 open /1 1 WR -\n', 2, b'WR', 'perhaps: RW'),
    (DIRECT + '0 do c1 open /1 1 R\n', 2, b'', 'a word is missing'),
    (HEAD + '0 turn s2\n', 2, b's2', 'there are 2 servers'),
    (HEAD + '0 recall s0 own /\n', 2, b'own', 'never recalled'),
    (HEAD + '0 tell Next\n', 2, b'Next', 'could stand there: a packet'),
    (HEAD + '0 join c1\n50 turn s1\n39 turn s0\n', 4, b'39', 'a reading from 40 on'),
    (DIRECT + '0 do c1 list /\xff\n', 2, b'/\xff', 'made of numbers'),
]


def fault_of(data):
    """What is wrong with the bytes; None where they are a schedule."""
    try:
        grammar.read_schedule(data)
    except grammar.Fault as fault:
        return fault
    return None


class Reading(unittest.TestCase):
    def test_each_fault_is_told_and_marked(self):
        for text, line, part, said in FAULTS:
            data = text if isinstance(text, bytes) else text.encode('latin-1')
            with self.subTest(data):
                fault = fault_of(data)
                self.assertIsNotNone(fault)
                self.assertEqual(fault.line, line)
                found = data.split(b'\n')[line - 1]
                self.assertEqual(found[fault.start:fault.end], part)
                self.assertIn(said, '\n'.join(explain.refusal('FILE', data, fault)))

    def test_limits(self):
        line = b'0 join c1\n'
        full = DIRECT.encode() + line * grammar.EVENTS
        self.assertIsNone(fault_of(full))
        self.assertEqual(str(fault_of(full + line)), 'line 65538 passes the limit of events')
        self.assertEqual(str(fault_of(DIRECT.encode() + b'0' * 4097)), 'line 2 passes the limit of bytes')
        self.assertEqual(str(fault_of(DIRECT.encode() + b'0' * 4096)), 'line 2 is not in the grammar')
        self.assertEqual(str(fault_of(bytes(files.INPUT_BYTES + 1))), 'the input has more than 16777216 bytes')
        self.assertEqual(str(fault_of(bytes(files.INPUT_BYTES))), 'line 1 passes the limit of bytes')

    def test_limits_are_those_of_the_sources(self):
        found = {}
        for parts in (('fs_schedule', 'src', 'limits.rt'), ('fs_msg', 'src', 'limits.rt'), ('fs_ident', 'src', 'limits.rt')):
            for name, value in re.findall(r'pub const (\w+): \w+ = ([0-9_]+);', trying.source(*parts)):
                found[name] = int(value)
        self.assertEqual((found['BYTES'], found['EVENTS']), (grammar.LINE_BYTES, grammar.EVENTS))
        self.assertEqual((found['SERVERS'], found['SESSIONS']), (operands.SERVERS, operands.SESSIONS))
        self.assertEqual(found['LONGEST'], operands.DURATIONS)


@functools.lru_cache(None)
def case_at(path):
    """The schedule of a case and None, or None and what the program that there is refuses."""
    data = trying.bytes_of(path)
    try:
        return grammar.read_schedule(data), None
    except grammar.Fault as fault:
        return None, fault


class Agreeing(unittest.TestCase):
    @unittest.skipUnless(os.path.isdir(trying.CONFORMANCE), 'no ../shared/conformance')
    def test_it_agrees_with_the_program_on_every_case(self):
        for path, said in trying.conformance_cases():
            fault = case_at(path)[1]
            self.assertEqual('farsite: %s' % fault if fault else '', said, path)

    @unittest.skipUnless(os.path.isdir(trying.CONFORMANCE), 'no ../shared/conformance')
    def test_with_a_report_it_finds_every_line_that_does_nothing(self):
        for path, said in trying.conformance_cases():
            if said:
                continue
            schedule = case_at(path)[0]
            with open(path[:-len('schedule')] + 'out', 'rb') as stream:
                run = runs.run_in(schedule, stream, path)
            told = [line for line in explain.warnings(schedule, run) if 'does nothing' in line]
            idle = ['line %d ' % at for at, outcome in enumerate(run.outcomes, 2) if outcome.actor is None]
            self.assertEqual([line[:len(start)] for line, start in zip(told, idle)], idle, path)
            self.assertEqual(len(told), len(idle), path)

    @unittest.skipUnless(files.launcher_state() == 'built', 'the program is not built')
    def test_it_agrees_with_the_built_program_on_spoiled_examples(self):
        random = Random(33)
        for path, _ in trying.examples():
            for _ in range(6):
                data = self.spoiled(random, trying.bytes_of(path))
                run = subprocess.run([files.BUILT_PROGRAM, 'replay'], input=data, stdout=subprocess.PIPE,
                                     stderr=subprocess.PIPE, timeout=trying.SECONDS, check=False)
                fault = fault_of(data)
                self.assertEqual('farsite: %s\n' % fault if fault else '', run.stderr.decode(), data)

    @staticmethod
    def spoiled(random, data):
        """The bytes with one taken out, put in or changed."""
        at = random.below(len(data))
        byte = bytes([random.choice(b' \n\r"/0149acst-.RWD\t\xc3')])
        return random.choice((data[:at] + data[at + 1:], data[:at] + byte + data[at:], data[:at] + byte + data[at + 1:]))


class Warnings(unittest.TestCase):
    def warnings(self, text, report=None):
        schedule = grammar.read_schedule(text.encode())
        run = runs.run_in(schedule, io.BytesIO(report.encode()), 'REPORT') if report else None
        return list(explain.warnings(schedule, run))

    def test_sessions_without_a_report(self):
        told = self.warnings(DIRECT + '0 do c1 kind /\n0 join c1\n0 join c1\n')
        self.assertEqual(told, ['line 2 does nothing: c1 has not joined', 'line 4 does nothing: c1 joined already'])

    def test_packets_without_a_report(self):
        told = self.warnings(HEAD + '0 tell 0\n0 join c1\n0 do c1 kind /\n0 tell 9\n')
        self.assertEqual(told[0], 'line 2 does nothing: nothing can have been sent yet')
        self.assertIn('only a run tells', told[1])

    def test_packets_with_a_report(self):
        told = self.warnings(
            HEAD + '0 join c1\n0 tell 0\n0 do c1 kind /\n0 tell 7\n0 tell next\n',
            'e1 c1 joined\ne2 - nothing\ne3 c1 asked s0 life / shared sends 0 1\ne4 - nothing\ne5 s0 none\n')
        self.assertEqual(told, [
            'line 3 does nothing: packet 0 is sent only in line 4',
            'line 5 does nothing: packet 7 is never sent; the last one is 1',
            'packet 1 (line 4) is never told, and so is lost; in brackets, the line that sends'])

    def test_every_example_is_taken_and_does_something(self):
        for path, report in trying.examples():
            told = self.warnings(trying.text_of(path), trying.text_of(report))
            self.assertEqual([line for line in told if 'does nothing' in line], [], path)


class Hostile(unittest.TestCase):
    def setUp(self):
        self.folder = tempfile.TemporaryDirectory()
        self.addCleanup(self.folder.cleanup)
        self.big = os.path.join(self.folder.name, 'big')
        self.bytes = os.path.join(self.folder.name, 'bytes')
        with open(self.big, 'wb') as file:
            file.truncate(2**30)
        with open(self.bytes, 'wb') as file:
            file.write(bytes(range(256)))
        self.example, self.report = [pair for pair in trying.examples() if 'leases' in pair[0]][0]

    def explained(self, *words):
        status, output, errors = trying.tool('explain', *words)
        self.assertNotIn('Traceback', errors)
        return status, output, errors

    def test_schedules(self):
        status, output, _ = self.explained(self.big)
        self.assertEqual((status, output.strip()), (1, self.big + ': the input has more than 16777216 bytes'))
        status, output, _ = self.explained(self.bytes)
        self.assertEqual(status, 1)
        self.assertIn('\\x00\\x01', output)

    def test_reports(self):
        for report in (self.big, self.bytes, self.example, trying.examples()[0][1], trying.examples()[-1][1]):
            schedule = grammar.read_schedule(trying.bytes_of(self.example))
            with open(report, 'rb') as stream:
                with self.assertRaisesRegex(files.Failed, 'is no report'):
                    runs.run_in(schedule, stream, report)

    def test_files_that_are_not_there(self):
        status, _, errors = self.explained(self.example, os.path.join(self.folder.name, 'none'))
        self.assertEqual(status, 2)
        self.assertIn('could not be read', errors)


if __name__ == '__main__':
    unittest.main()
