"""Tests of the launcher's own answers: none of them compiles."""
import os
import stat
import tempfile
import unittest

import trying

LAUNCHER = os.path.join(trying.ROOT, 'farsite')
HINT = 'farsite: the schedule is read from standard input: ./farsite replay < FILE\n'


class Answering(unittest.TestCase):
    """With a toolchain on the PATH that only notes that it was called."""

    def setUp(self):
        folder = tempfile.TemporaryDirectory()
        self.addCleanup(folder.cleanup)
        self.folder = folder.name
        self.note = os.path.join(self.folder, 'called')
        toolchain = os.path.join(self.folder, 'rt')
        with open(toolchain, 'w', encoding='ascii') as file:
            file.write('#!/bin/sh\ntouch "%s"\nexit 1\n' % self.note)
        os.chmod(toolchain, stat.S_IRWXU)
        self.environment = dict(os.environ, PATH=self.folder + os.pathsep + os.environ['PATH'])

    def launched(self, *words, source=None):
        ended = trying.called(LAUNCHER, *words, source=source, environment=self.environment)
        self.assertFalse(os.path.exists(self.note), 'the toolchain was called for %r' % (words,))
        return ended

    def test_faulty_words(self):
        first, second, third = ('farsite: word %d is not understood\n' % k for k in (1, 2, 3))
        for words, said in (((), first), (('x',), first), (('',), first), (('--help', 'x'), first), (('-h', 'x'), first),
                            (('\udcff',), first), (('replay', 'x'), second + HINT), (('replay', ''), second + HINT),
                            (('replay', 'replay', 'x'), second + HINT), (('build', 'x'), second), (('state', 'x'), second),
                            (('gen',), second), (('gen', '-1'), second), (('gen', '01'), second),
                            (('gen', '18446744073709551616'), second), (('gen', '1', 'x'), third)):
            self.assertEqual(self.launched(*words), (2, '', said), words)

    def test_help(self):
        page = trying.source('farsite', 'src', 'page.rt')
        text = page.split('const HELP: &str = "')[1].split('";')[0]
        for word in ('--help', '-h'):
            status, output, errors = self.launched(word)
            self.assertEqual((status, errors), (0, ''))
            self.assertTrue(output.startswith(text + '\n'), output)
            self.assertIn('tools/explain', output[len(text):])

    def test_version(self):
        self.assertEqual(self.launched('--version'), (0, 'farsite 0.1.0\n', ''))

    def test_a_node_is_run_by_the_built_program_alone(self):
        if self.launched('state')[1] == 'built\n':
            self.skipTest('the program is built')
        status, output, errors = self.launched('node', 's0')
        self.assertEqual((status, output), (22, ''))
        self.assertIn('only the built program runs a node', errors)

    def test_state(self):
        status, output, errors = self.launched('state')
        self.assertEqual((status, errors), (0, ''))
        self.assertIn(output, ('built\n', 'not built\n', 'built from other sources\n'))

    def test_an_input_that_is_too_long(self):
        path = os.path.join(self.folder, 'long')
        for length in (16_777_217, 2**30):
            with open(path, 'wb') as file:
                file.truncate(length)
            self.assertEqual(self.launched('replay', source=path),
                             (6, '', 'farsite: the input has more than 16777216 bytes\n'))


if __name__ == '__main__':
    unittest.main()
