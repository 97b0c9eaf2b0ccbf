"""Tests of the man page, of completion, and of what every tool tells of itself."""
import os
import shutil
import subprocess
import unittest

import trying

MAN_PAGE = os.path.join(trying.ROOT, 'docs', 'farsite.1')
COMPLETION = os.path.join(trying.TOOLS, 'completion.bash')


def tools():
    """The tools: what stands in the folder and can be run, but for the runner of tests."""
    return sorted(name for name in os.listdir(trying.TOOLS) if name != 'test' and '.' not in name
                  and os.path.isfile(os.path.join(trying.TOOLS, name)))


class ManPage(unittest.TestCase):
    @unittest.skipUnless(shutil.which('man') and shutil.which('groff'), 'no man and groff')
    def test_man_has_no_warnings(self):
        environment = dict(os.environ, LC_ALL='C', MANWIDTH='80', MANROFFSEQ='')
        run = subprocess.run(['man', '--warnings', '-l', MAN_PAGE], stdin=subprocess.DEVNULL, stdout=subprocess.PIPE,
                             stderr=subprocess.PIPE, env=environment, timeout=trying.SECONDS, check=False)
        if run.returncode != 0 and b'minimized' in run.stdout + run.stderr:
            self.skipTest('man is left out of this system')
        self.assertEqual((run.returncode, run.stderr.decode()), (0, ''))
        self.assertIn(b'farsite replay', run.stdout)

    def test_it_has_every_status_of_the_reference(self):
        reference = trying.text_of(os.path.join(trying.ROOT, 'docs', 'REFERENCE.md'))
        page = trying.text_of(MAN_PAGE)
        for status in ('0', '2', '3', '4', '5', '6', '7', '8', '9', '10', '11', '20', '24', '129', '130', '143'):
            self.assertRegex(reference, r'(?m)^\| ([0-9, ]*, )?%s(,[0-9, ]*)? \|' % status)
            self.assertRegex(page, r'(?m)^\.BR? .*\b%s\b' % status)


class Completion(unittest.TestCase):
    def completed(self, *words):
        script = '. "$1"; shift; COMP_WORDS=("$@"); COMP_CWORD=$(($# - 1)); ' \
                 'f=$(complete -p "$1"); f=${f#*-F }; "${f%% *}"; printf "%s\\n" "${COMPREPLY[@]}"'
        _, output, errors = trying.called('bash', '-c', script, 'bash', COMPLETION, *words)
        self.assertEqual(errors, '')
        return output.split()

    def test_words(self):
        self.assertEqual(self.completed('./farsite', 'r'), ['replay'])
        self.assertEqual(self.completed('./farsite', '--'), ['--help', '--version'])
        self.assertEqual(self.completed('./farsite', 'replay', ''), [])

    def test_options_and_files(self):
        self.assertIn('--skew', self.completed('tools/make', '--s'))
        self.assertIn('--loss', self.completed('examples/cluster/run', '--l'))
        self.assertIn('examples/first.schedule', self.completed('tools/explain', 'examples/f'))


class Telling(unittest.TestCase):
    def test_each_tool_has_help_and_says_that_it_is_not_proved(self):
        for name in tools():
            status, output, errors = trying.called(os.path.join(trying.TOOLS, name), '--help')
            self.assertEqual((status, errors), (0, ''), name)
            self.assertIn('no part of any proof', ' '.join(output.split()), name)

    def test_the_folder_holds_the_tools_alone(self):
        self.assertEqual(sorted(os.listdir(trying.TOOLS)), sorted([*tools(), 'common', 'completion.bash', 'test', 'tests']))

    def test_each_tool_is_in_the_reference(self):
        reference = trying.text_of(os.path.join(trying.ROOT, 'docs', 'REFERENCE.md'))
        for name in tools():
            self.assertTrue('tools/%s' % name in reference, name)

    def test_each_tool_is_in_the_man_page_and_can_be_completed(self):
        page, completion = trying.text_of(MAN_PAGE), trying.text_of(COMPLETION)
        names = completion.split('for _farsite_name in ')[1].split(';')[0].split()
        self.assertEqual(sorted(names), tools())
        for name in tools():
            self.assertTrue('tools/%s' % name in page, name)


if __name__ == '__main__':
    unittest.main()
