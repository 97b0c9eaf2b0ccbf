"""Files, and programs that are run: read within limits, and a sentence in place of a trace where that fails."""
import os
import subprocess
import sys

from common.texts import shown

# What the program takes as input; what is read of a report that is kept whole.
INPUT_BYTES = 16_777_216
REPORT_BYTES = 268_435_456

ROOT = os.path.dirname(os.path.dirname(os.path.dirname(os.path.abspath(__file__))))
LAUNCHER = os.path.join(ROOT, 'farsite')
BUILT_PROGRAM = os.path.join(ROOT, 'crates', 'farsite', 'out', 'farsite')


class Failed(Exception):
    """What a tool could not do, as a sentence for its user."""


def opened(path):
    """The file, to be read."""
    try:
        return open(path, 'rb')
    except (OSError, ValueError) as error:
        raise unread(path, error) from error


def unread(path, error):
    """The sentence on a file that could not be read."""
    return Failed('%s could not be read: %s' % (shown(path), getattr(error, 'strerror', None) or error))


def read_bytes(path, most):
    """The bytes of a file, with one more than so many where it has more."""
    with opened(path) as file:
        try:
            return file.read(most + 1)
        except OSError as error:
            raise unread(path, error) from error


def read_input(path):
    """The bytes of a schedule, with one more than the limit where it has more."""
    return read_bytes(path, INPUT_BYTES)


def write_output(path, data):
    """Writes the bytes to the file, or to standard output where the path is `-`."""
    try:
        if path == '-':
            sys.stdout.buffer.write(data)
            sys.stdout.buffer.flush()
            return
        with open(path, 'wb') as file:
            file.write(data)
    except BrokenPipeError:
        raise
    except OSError as error:
        if path == '-':
            raise
        raise Failed('%s could not be written: %s' % (shown(path), error.strerror)) from error


def replay_command(program):
    """The words that run a schedule: the program that is named, or the built one where the launcher says it is."""
    if program is not None:
        return [program, 'replay']
    if launcher_state() == 'built':
        return [BUILT_PROGRAM, 'replay']
    return None


def launcher_state():
    """What the launcher says of the program: `built`, `not built` or `built from other sources`."""
    try:
        said = subprocess.run([LAUNCHER, 'state'], stdin=subprocess.DEVNULL, stdout=subprocess.PIPE,
                              stderr=subprocess.DEVNULL, check=False)
    except OSError:
        return 'not built'
    return said.stdout.decode('ascii', 'replace').strip()


def report_of(command, data, errors=subprocess.PIPE):
    """The report that the program writes for a schedule. Where its errors are not kept, they go where the tool's go."""
    try:
        run = subprocess.run(command, input=data, stdout=subprocess.PIPE, stderr=errors, check=False)
    except OSError as error:
        raise Failed('%s could not be started: %s' % (shown(command[0]), error.strerror)) from error
    if run.returncode != 0:
        said = '' if run.stderr is None else ': ' + (run.stderr.decode('utf-8', 'replace').strip() or 'it said nothing')
        raise Failed('%s ended with %d, without a report%s' % (shown(' '.join(command)), run.returncode, said))
    return run.stdout


def run_tool(name, main):
    """Calls a tool and ends with its status; what it could not do is a sentence, and a closed output no trace."""
    try:
        status = ended(main)
    except Failed as failed:
        print('%s: %s' % (name, failed), file=sys.stderr)
        status = 2
    except BrokenPipeError:
        leave_output()
        status = 2
    except OSError as error:
        leave_output()
        print('%s: standard output could not be written: %s' % (name, error.strerror), file=sys.stderr)
        status = 2
    except KeyboardInterrupt:
        print('%s: broken off' % name, file=sys.stderr)
        status = 130
    except MemoryError:
        print('%s: memory is wanting' % name, file=sys.stderr)
        status = 2
    sys.exit(status)


def ended(main):
    """The status of a tool, all of whose output is written."""
    if sys.stdout is None:
        raise Failed('standard output is closed')
    sys.stdout.reconfigure(errors='backslashreplace')
    try:
        status = main()
    except SystemExit as asked:
        status = asked.code
    sys.stdout.flush()
    return status


def leave_output():
    """Nothing more can be written: what still waits to be is dropped."""
    os.dup2(os.open(os.devnull, os.O_WRONLY), sys.stdout.fileno())
