"""Runs of `hegrastol` as people run it: exit status, the line it ends with, and which files there are afterwards."""
import os
import pathlib
import re
import resource
import shutil
import signal
import subprocess
import tempfile
import time

import file_cases
import file_model
import file_reduction
import needs
from try_streams import UNWRITTEN, compared, last_line

HEGRASTOL = needs.ROOT / 'hegrastol'
BEFORE = b'what was there before\n'
NOBODY = 65534
# 01's example and its output as text and as graphs, by hand.
SHOWN = '''3 states, 2 labels, 2 rows, initial state 0

state 0
    1  -> 1
    1  -> 2

state 1: no rows

state 2: no rows
'''
SHOWN_OUTPUT = '''2 blocks of 3 source states, 2 labels, 1 row, initial block 0

block 0
    1  -> 1

block 1: no rows

the block of each source state
    0  in 0
    1  in 1
    2  in 1
'''
# The texts of their nodes and edges as a graph.
DRAWN = {'0': '0', '1': '1', '2': '2', '0 -> 1': '1', '0 -> 2': '1'}
DRAWN_OUTPUT = {'0': '0\\n1 state', '1': '1\\n2 states', '0 -> 1': '1'}
DRAWN_LINE = re.compile(r'^ +(\d+(?: -> \d+)?) \[label="([^"]*)"', re.MULTILINE)
# The output with a number put into a field (its offset, its bytes), or cut (None), and the refusal due, by hand.
WRONG_OUTPUTS = (
    (0, 2, 4, (13, 0)), (2, 2, 2, (13, 2)), (4, 4, 22, (13, 4)), (12, 2, 3, (13, 12)), (14, 4, 30, (13, 14)),
    (18, 4, 12, (13, 18)), (22, 2, 2, (13, 22)), (24, 4, 40, (13, 24)), (28, 4, 5, (13, 28)), (28, 4, 0, (13, 28)),
    (28, 4, 8194, (13, 28)), (28, 4, 8, (13, 52)), (28, 4, 4, (13, 50)), (36, 2, 2, (13, 18)), (32, 2, 0, (1, 0)),
    (34, 2, 0, (2, 0)), (38, 2, 2, (4, 0)), (44, 2, 2, (5, 0)), (48, 2, 2, (8, 2)), (50, 2, 700, (8, 700)),
    (20, None, None, (13, 22)), (23, None, None, (13, 22)), (24, None, None, (13, 24)), (39, None, None, (13, 39)),
    (51, None, None, (13, 51)),
)


def run(*words, program=HEGRASTOL, **settings):
    return subprocess.run([program, *words], capture_output=True, **settings)


def in_folder(test):
    """A test with a folder of its own."""
    def tested(*given, **settings):
        with tempfile.TemporaryDirectory() as folder:
            return test(pathlib.Path(folder), *given, **settings)
    return tested


def left(folder):
    """The files in a folder with what they hold."""
    return {path.name: path.read_bytes() for path in folder.iterdir() if path.is_file()}


@in_folder
def reduced(folder, data, there):
    """OUT is the whole result, or what it was before; beside it nothing is left."""
    files = {'in file': data, **({'out file': BEFORE} if there else {})}
    for name, held in files.items():
        folder.joinpath(name).write_bytes(held)
    ended = run('reduce', folder / 'in file', folder / 'out file')
    written, line = file_reduction.answer(data)
    due = {**files, **({'out file': written} if written else {})}
    return compared(f'reduce of {len(data)} bytes', (ended.returncode, last_line(ended), left(folder)),
                    (0 if written else 1, line, due))


@in_folder
def in_place(folder):
    """IN and OUT are the same file."""
    path = folder / 'both'
    path.write_bytes(file_cases.EXAMPLE)
    ended = run('reduce', path, path)
    return compared('reduce in place', (ended.returncode, left(folder)), (0, {'both': file_cases.EXAMPLE_OUTPUT}))


@in_folder
def no_room(folder):
    """No file may grow: no part of the result is left, and what was there stays."""
    files = {'in': file_cases.EXAMPLE, 'out': BEFORE}
    for name, held in files.items():
        folder.joinpath(name).write_bytes(held)
    ended = run('reduce', folder / 'in', folder / 'out',
                preexec_fn=lambda: resource.setrlimit(resource.RLIMIT_FSIZE, (0, 0)))
    return compared('no room for OUT', (ended.returncode, left(folder)), (2, files))


@in_folder
def interrupted(folder, number):
    """Stopped by a signal while it waits for its input: nothing is left."""
    os.mkfifo(folder / 'in')
    running = subprocess.Popen([HEGRASTOL, 'reduce', folder / 'in', folder / 'out'], start_new_session=True,
                               stderr=subprocess.DEVNULL)
    with open(folder / 'in', 'wb') as feeding:
        feeding.write(file_cases.EXAMPLE[:20])
        feeding.flush()
        time.sleep(0.5)
        os.killpg(running.pid, number)
        status = running.wait()
    return compared(f'signal {number}', (status, left(folder)), (128 + number, {}))


def files():
    chosen = [file_cases.EXAMPLE, file_cases.EXAMPLE[:20], b'', file_model.bytes_of(file_cases.apart()),
              file_model.bytes_of(file_model.Table(0, 1, 0, [])), file_cases.EXAMPLE_OUTPUT]
    return [*(reduced(data, there) for data in chosen for there in (False, True)), in_place(), no_room(),
            *(interrupted(number) for number in (signal.SIGHUP, signal.SIGINT, signal.SIGTERM))]


@in_folder
def stopped(folder, words, due, **settings):
    """Something that ends with status 2: a line is said, and nothing is written."""
    (folder / 'in').write_bytes(file_cases.EXAMPLE)
    (folder / 'folder').mkdir()
    ended = run(*words, cwd=folder, **settings)
    return compared(' '.join(words), (ended.returncode, due in last_line(ended), left(folder)),
                    (2, True, {'in': file_cases.EXAMPLE}))


@in_folder
def unreadable(folder, *words):
    """The file can't be read by who runs this: where that is root, nobody does."""
    path = folder / 'in'
    path.write_bytes(file_cases.EXAMPLE)
    path.chmod(0)
    folder.chmod(0o777)
    ended = run(*words, cwd=folder, **({'user': NOBODY} if os.geteuid() == 0 else {}))
    path.chmod(0o600)
    got = ended.returncode, 'in cannot be read' in last_line(ended), left(folder)
    return compared(f'{words[0]} of a file that cannot be read', got, (2, True, {'in': file_cases.EXAMPLE}))


def few_commands(folder):
    """An environment with a PATH of the few commands that are needed to find out what is missing."""
    for name in ('dirname', 'readlink'):
        folder.joinpath(name).symlink_to(needs.command(name, name))
    return {'PATH': str(folder)}


@in_folder
def without_python(folder, words):
    return stopped(words, 'needs Python 3.9', env=few_commands(folder))


@in_folder
def without_kit(folder):
    """Nothing is built, and no rt is on the PATH."""
    copy = shutil.copy(HEGRASTOL, folder)
    return stopped(['reduce', 'in', 'out'], 'Rattle kit', program=copy, env=few_commands(folder))


def stops():
    """Missing files, folders, a full disk, wrong words, no kit, files that can't be read, no Python."""
    return [stopped(['reduce', 'none', 'out'], 'there is no file none'),
            stopped(['reduce', 'folder', 'out'], 'folder is a folder'),
            stopped(['reduce', 'in', 'folder'], 'folder is a folder'),
            stopped(['reduce', 'in', 'none/out'], 'there is no folder none'),
            stopped(['reduce', 'in', '/dev/full'], UNWRITTEN),
            stopped(['reduce', 'in'], 'reduce IN OUT'),
            stopped(['reduce', 'in', 'out', 'more'], 'reduce IN OUT'),
            without_kit(),
            stopped(['other'], 'there is no command other'),
            stopped(['show'], 'required'),
            stopped(['show', 'none'], 'none cannot be read'),
            stopped(['dot', 'folder'], 'folder cannot be read'),
            stopped(['show', 'in', 'none'], 'none cannot be read'),
            unreadable('reduce', 'in', 'out'), unreadable('show', 'in'), unreadable('dot', 'in'),
            without_python(['show', 'in']), without_python(['dot', 'in'])]


@in_folder
def shown(folder, command, data, due):
    path = folder / 'file'
    path.write_bytes(data)
    ended = run(command, path)
    got = ended.returncode, ended.stdout.decode() if ended.returncode == 0 else last_line(ended)
    return compared(f'{command} of {data[:60].hex()}', got, due)


@in_folder
def drawn(folder, data, due):
    path = folder / 'file'
    path.write_bytes(data)
    ended = run('dot', path)
    return compared('dot', (ended.returncode, dict(DRAWN_LINE.findall(ended.stdout.decode()))), (0, due))


def refused_alike(command, data):
    """What the program refuses is refused with the same line."""
    refusal = file_model.read(data)[1]
    return shown(command, data, (1, file_model.refused_line(refusal)))


def wrong_output(command, at, width, value, refusal):
    output = file_cases.EXAMPLE_OUTPUT
    wrong = output[:at] if width is None else file_cases.put(output, at, width, value)
    return shown(command, wrong, (1, file_model.refused_line(refusal)))


def texts():
    cut = [file_cases.EXAMPLE[:size] for size in range(0, len(file_cases.EXAMPLE), 7)]
    return [shown('show', file_cases.EXAMPLE, (0, SHOWN)), shown('show', file_cases.EXAMPLE_OUTPUT, (0, SHOWN_OUTPUT)),
            drawn(file_cases.EXAMPLE, DRAWN), drawn(file_cases.EXAMPLE_OUTPUT, DRAWN_OUTPUT),
            *(refused_alike(command, data) for command in ('show', 'dot') for data in cut),
            *(wrong_output(command, *wrong) for command in ('show', 'dot') for wrong in WRONG_OUTPUTS)]


KINDS = {'hegrastol: what it leaves': files, 'hegrastol: what it cannot do': stops, 'hegrastol: shown': texts}
