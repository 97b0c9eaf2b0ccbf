"""Tests of the cluster on this machine: its runner with a stand-in for the program, its relay over plain sockets, and the program where it is built."""
import contextlib
import importlib.machinery
import importlib.util
import io
import os
import socket
import stat
import subprocess
import sys
import time
import unittest
from unittest import mock

import trying
from common import files

CLUSTER = os.path.join(trying.ROOT, 'examples', 'cluster')
RUN, RELAY = (os.path.join(CLUSTER, name) for name in ('run', 'relay'))
# A stand-in for the program: each node reads its script, and does what the test says of it.
NODE = """#!/bin/sh
cat >/dev/null
case $2 in
  %s
esac
echo "$2 1 kind / isdir"
echo 'summary turns 3 admitted 1 dropped 0 receive_faults 0 send_faults 0'
"""
# How many datagrams are sent, of a few bytes each.
COUNT = 200
# Seconds: that a datagram may take on a busy machine, beyond what the relay has it wait.
SLOW = 2.0


def has_nodes():
    """Whether the program is built, and runs nodes."""
    if files.launcher_state() != 'built':
        return False
    return trying.called(files.BUILT_PROGRAM, 'node')[2] == 'farsite: word 2 is not understood\n'


class Running(trying.Folder):
    def program(self, cases=''):
        path = self.file('node', NODE % (cases or '-) ;;'))
        os.chmod(path, stat.S_IRWXU)
        return path

    def ran(self, cases='', *words):
        return trying.called(RUN, '--program', self.program(cases), *words)

    def test_help(self):
        for path, word in ((RUN, '--program'), (RELAY, '--delay')):
            status, output, errors = trying.called(path, '--help')
            self.assertEqual((status, errors), (0, ''))
            for option in ('--loss', '--repeat', '--seed', word):
                self.assertIn(option, output)

    def test_each_line_has_its_node(self):
        for words in ((), ('--loss', '10')):
            status, output, errors = self.ran('', *words)
            self.assertEqual((status, errors), (0, ''))
            lines = output.splitlines()
            for node in ('s0', 's1', 's2', 'c1', 'c2', 'c3', 'c4'):
                self.assertIn('%s: %s 1 kind / isdir' % (node, node), lines)
            self.assertEqual(lines[-1], 'cluster: every script of a client is done')
            self.assertEqual('relay: datagrams 0 lost 0 repeated 0 dropped 0' in lines, bool(words))

    def test_what_is_not_done(self):
        for cases, said in (("c2) echo 'open 4' ;;", 'c2 ended with `open 4`'), ("c1) echo 'over 1' ;;", 'c1 ended with `over 1`'),
                            ("s1) echo 'farsite: memory is wanting' >&2; exit 10 ;;", 's1 ended with 10: memory is wanting'),
                            ("c4) exit 0 ;;", 'c4 wrote no summary'), ("c3) kill -9 $$ ;;", 'c3 was ended by signal 9')):
            status, output, errors = self.ran(cases)
            self.assertEqual((status, errors), (1, ''), said)
            self.assertEqual(output.splitlines()[-1], 'cluster: ' + said)
        status, output, _ = self.ran("s0) echo 'open 4' ;;")
        self.assertEqual((status, 's0: open 4' in output), (0, True))

    def test_what_is_missing(self):
        for words, said in ((('--program', os.path.join(self.folder, 'none')), 'is no program'),
                            (('--program', '/bin/true', '--scripts', self.folder), 's0.script could not be read'),
                            (('--loss', '101'), 'is no number from 0 to 100'), (('--turns', '0'), 'is no number from 1')):
            status, output, errors = trying.called(RUN, *words)
            self.assertEqual((status, output), (2, ''))
            self.assertIn(said, errors)
        status, _, errors = self.ran("*) echo 'farsite: word 1 is not understood' >&2; exit 2 ;;")
        self.assertEqual(status, 2)
        self.assertIn('has no word `node`', errors)

    def test_a_node_that_does_not_end(self):
        loader = importlib.machinery.SourceFileLoader('cluster_run', RUN)
        run = importlib.util.module_from_spec(importlib.util.spec_from_loader('cluster_run', loader))
        loader.exec_module(run)
        words = ['run', '--program', self.program('s2|c2) echo $$ >"%s/$2"; exec sleep 100 ;;' % self.folder)]
        output = io.StringIO()
        with mock.patch.object(sys, 'argv', words), mock.patch.object(run, 'LIMIT', 1), mock.patch.object(run.signal, 'signal'), \
                contextlib.redirect_stdout(output):
            self.assertEqual(run.main(), 1)
        self.assertIn('cluster: s2 was not at its end after 1 seconds\n', output.getvalue())
        for node in ('s2', 'c2'):
            with self.assertRaises(ProcessLookupError):
                os.kill(int(trying.text_of(os.path.join(self.folder, node))), 0)


class Relaying(unittest.TestCase):
    """Two sockets in place of nodes, and the relay between them."""

    def relayed(self, *words):
        """The sockets, and the address at which each finds the other."""
        nodes = []
        for _ in range(2):
            node = socket.socket(socket.AF_INET, socket.SOCK_DGRAM)
            self.addCleanup(node.close)
            node.bind(('127.0.0.1', 0))
            node.settimeout(SLOW)
            nodes.append(node)
        self.relay = subprocess.Popen([RELAY, *words] + ['n%d=%s:%d' % (k, *node.getsockname()) for k, node in enumerate(nodes)],
                                      stdin=subprocess.PIPE, stdout=subprocess.PIPE)
        self.addCleanup(self.end)
        lines = [self.relay.stdout.readline().decode().rstrip('\n') for _ in range(3)]
        self.assertEqual(lines[2], 'ready')
        stands = [line.split('=')[1].split(':') for line in lines[:2]]
        return nodes, [(ip, int(port)) for ip, port in stands]

    def end(self):
        self.relay.kill()
        self.relay.wait()
        self.relay.stdin.close()
        self.relay.stdout.close()

    def counts(self):
        """What it says at its end."""
        self.relay.stdin.close()
        words = self.relay.stdout.read().decode().split()
        self.assertEqual(self.relay.wait(SLOW * 10), 0)
        return dict(zip(words[::2], map(int, words[1::2])))

    def sent(self, nodes, stands, count):
        """Sends numbers from one to the other, and gives those that came with the time that each took: no more than a socket keeps, so that
        none is lost but by the relay."""
        came, times = [], []

        def take(seconds):
            nodes[1].settimeout(seconds)
            # (without a wait, nothing there is another error than with one)
            with contextlib.suppress(socket.timeout, BlockingIOError):
                while True:
                    data, at = nodes[1].recvfrom(100)
                    self.assertEqual(at, stands[0])
                    came.append((int(data), time.monotonic() - times[int(data)]))

        for k in range(count):
            times.append(time.monotonic())
            nodes[0].sendto(b'%d' % k, stands[1])
            take(0)
        take(1)
        return came

    def test_all_goes_on(self):
        nodes, stands = self.relayed()
        self.assertEqual([k for k, _ in self.sent(nodes, stands, 100)], list(range(100)))
        nodes[1].sendto(b'back', stands[0])
        self.assertEqual(nodes[0].recvfrom(100), (b'back', stands[1]))
        long = bytes(range(256)) * 5
        nodes[1].sendto(long, stands[0])
        self.assertEqual(nodes[0].recvfrom(2000), (long, stands[1]))
        with socket.socket(socket.AF_INET, socket.SOCK_DGRAM) as stranger:
            stranger.sendto(b'who', stands[0])
        nodes[0].sendto(b'to itself', stands[0])
        nodes[1].sendto(b'last', stands[0])
        self.assertEqual(nodes[0].recvfrom(100), (b'last', stands[1]))
        self.assertEqual(self.counts(), {'datagrams': 103, 'lost': 0, 'repeated': 0, 'dropped': 2})

    def test_loss_and_repeats(self):
        seen = []
        for seed in ('1', '1', '2'):
            nodes, stands = self.relayed('--loss', '20', '--repeat', '30', '--seed', seed)
            came = [k for k, _ in self.sent(nodes, stands, COUNT)]
            counts = self.counts()
            self.assertEqual((counts['datagrams'], counts['dropped']), (COUNT, 0))
            self.assertEqual(len(set(came)), COUNT - counts['lost'])
            self.assertEqual(len(came) - len(set(came)), counts['repeated'])
            self.assertTrue(20 < counts['lost'] < 65, counts)
            self.assertTrue(25 < counts['repeated'] < 75, counts)
            seen.append(came)
        self.assertEqual(seen[0], seen[1])
        self.assertNotEqual(seen[0], seen[2])

    def test_losing_all(self):
        nodes, stands = self.relayed('--loss', '100')
        self.assertEqual(self.sent(nodes, stands, 20), [])
        self.assertEqual(self.counts()['lost'], 20)

    def test_delay(self):
        nodes, stands = self.relayed('--delay', '60')
        came = self.sent(nodes, stands, COUNT)
        self.assertEqual(sorted(k for k, _ in came), list(range(COUNT)))
        self.assertNotEqual([k for k, _ in came], list(range(COUNT)), 'none came before an earlier one')
        took = [seconds for _, seconds in came]
        self.assertGreaterEqual(min(took), 0.030)
        self.assertLess(min(took), SLOW)

    def test_it_ends_when_it_is_told_to(self):
        self.relayed()
        self.relay.terminate()
        self.assertEqual(self.relay.wait(SLOW * 10), 0)

    def test_faulty_words(self):
        for word in ('n0', 'n0=', 'n0=127.0.0.1', 'n0=127.0.0.1:0', 'n0=127.0.0.1:65536', '=127.0.0.1:7', 'n0=localhost:7'):
            self.assertEqual(trying.called(RELAY, word)[0], 2, word)
        self.assertEqual(trying.called(RELAY, 'n0=127.0.0.1:7', 'n0=127.0.0.1:8')[0], 2)
        self.assertEqual(trying.called(RELAY, 'n0=127.0.0.1:7', 'n1=127.0.0.1:7')[0], 2)


@unittest.skipUnless(has_nodes(), 'the program is not built, or has no word node')
class Whole(unittest.TestCase):
    def test_every_script_is_done(self):
        for words in ((), ('--loss', '10', '--repeat', '5', '--delay', '30')):
            status, output, errors = trying.called(RUN, *words)
            self.assertEqual((status, errors), (0, ''), output)
            self.assertEqual(output.count('summary turns'), 7)


if __name__ == '__main__':
    unittest.main()
