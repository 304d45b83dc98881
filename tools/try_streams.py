"""Runs of `reduce` where its streams are unusual: what it says, and what it may have written."""
import fcntl
import os
import signal
import subprocess
import tempfile
import threading
import time

import file_cases
import file_model
import file_reduction
import needs

# How much stack the program is run with, in KB: docs/FILE.md says that it answers with so much.
STACK = 384


def limited(command):
    """A command with that much stack, by the system's limit."""
    return ['sh', '-c', f'ulimit -s {STACK} && exec "$@"', 'sh', *command]


COMMAND = limited([str(needs.ROOT / 'tools' / 'run'), 'reduce'])
UNREAD = 'failed: the input could not be read'
UNWRITTEN = 'failed: the output could not be written'
LARGEST = file_model.bytes_of(file_cases.apart())
TOO_LONG = file_model.bytes_of(file_model.Table(1, 1, 0, [(0, 0, 0)] * 65535))
SMALL_PIPE = 4096


def last_line(ended):
    """What a run says last on standard error."""
    lines = ended.stderr.decode(errors='replace').splitlines()
    return lines[-1] if lines else ''


def compared(what, got, due):
    return None if got == due else f'{what}\n  due:  {due}\n  said: {got}'


def run(**streams):
    return subprocess.run(COMMAND, stderr=subprocess.PIPE, **streams)


def from_folder():
    with tempfile.TemporaryDirectory() as folder:
        given = os.open(folder, os.O_RDONLY)
        ended = run(stdin=given, stdout=subprocess.PIPE)
        os.close(given)
    return compared('input from a folder', (last_line(ended), ended.stdout), (UNREAD, b''))


def closed(stream, due):
    """A standard stream is closed before the program starts."""
    given = {'input': file_cases.EXAMPLE} if stream == 1 else {}
    ended = run(preexec_fn=lambda: os.close(stream), **given)
    return compared(f'stream {stream} closed', last_line(ended), due)


def empty_input():
    ended = run(stdin=subprocess.DEVNULL, stdout=subprocess.PIPE)
    return compared('no input', (last_line(ended), ended.stdout), (file_model.refused_line((13, 0)), b''))


def in_pieces(data, size, pause):
    """The input comes through a pipe in pieces, so that a read gives less than there will be."""
    running = subprocess.Popen(COMMAND, stdin=subprocess.PIPE, stdout=subprocess.PIPE, stderr=subprocess.PIPE)

    def feed():
        for at in range(0, len(data), size):
            running.stdin.write(data[at:at + size])
            running.stdin.flush()
            time.sleep(pause)
        running.stdin.close()

    feeding = threading.Thread(target=feed)
    feeding.start()
    written, said = running.stdout.read(), running.stderr.read().decode()
    feeding.join()
    running.wait()
    return compared(f'{len(data)} bytes in pieces of {size}', (written, said.rstrip('\n')), file_reduction.answer(data))


def full_disk(data):
    with open('/dev/full', 'wb') as full:
        ended = run(input=data, stdout=full)
    return compared(f'{len(data)} bytes to a full disk', last_line(ended), UNWRITTEN)


def refused_to_full_disk():
    with open('/dev/full', 'wb') as full:
        ended = run(input=b'', stdout=full)
    return compared('a refusal to a full disk', last_line(ended), file_model.refused_line((13, 0)))


def to_nobody(data, ignored):
    """Nobody reads the pipe that is written to: the write fails, since a program of the kit ignores the signal."""
    reading, writing = os.pipe()
    os.close(reading)
    handler = signal.SIG_IGN if ignored else signal.SIG_DFL
    ended = run(input=data, stdout=writing, restore_signals=False,
                preexec_fn=lambda: signal.signal(signal.SIGPIPE, handler))
    os.close(writing)
    return compared(f'a pipe that nobody reads, the signal {"ignored" if ignored else "not ignored"}',
                    last_line(ended), UNWRITTEN)


def small_pipe():
    """A pipe with room for part of the output; its sizes."""
    reading, writing = os.pipe()
    fcntl.fcntl(writing, 1031, SMALL_PIPE)  # F_SETPIPE_SZ, which Python 3.9 has no name for
    return reading, writing


def full_pipe():
    """A pipe that is full and does not wait: part of the output goes, and then none."""
    reading, writing = small_pipe()
    os.set_blocking(writing, False)
    ended = run(input=LARGEST, stdout=writing)
    os.close(writing)
    os.close(reading)
    return compared('a pipe that is full and does not wait', last_line(ended), UNWRITTEN)


def slow_reader():
    """A pipe that is full and waits: the whole output comes."""
    reading, writing = small_pipe()
    running = subprocess.Popen(COMMAND, stdin=subprocess.PIPE, stdout=writing, stderr=subprocess.PIPE)
    os.close(writing)
    running.stdin.write(LARGEST)
    running.stdin.close()
    written = b''
    while part := os.read(reading, 1000):
        written += part
    os.close(reading)
    said = running.stderr.read().decode()
    running.wait()
    return compared('a slow reader', (written, said.rstrip('\n')), file_reduction.answer(LARGEST))


def inputs():
    return [from_folder(), closed(0, UNREAD), empty_input(), in_pieces(file_cases.EXAMPLE, 1, 0.01),
            in_pieces(file_cases.EXAMPLE[:-1], 5, 0.01), in_pieces(LARGEST, 4000, 0.01),
            in_pieces(TOO_LONG, 30_000, 0.01), in_pieces(TOO_LONG + b'\0', 30_000, 0.01)]


def outputs():
    return [full_disk(file_cases.EXAMPLE), full_disk(LARGEST), refused_to_full_disk(), closed(1, UNWRITTEN),
            to_nobody(file_cases.EXAMPLE, True), to_nobody(LARGEST, True), to_nobody(LARGEST, False), full_pipe(),
            slow_reader()]


KINDS = {'unusual inputs': inputs, 'unusual outputs': outputs}
