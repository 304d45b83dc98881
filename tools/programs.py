"""The two programs that are compared."""
import pathlib
import subprocess
import tempfile

import needs
from needs import ROOT

REPLAY = needs.program('replay')
ORACLE = ROOT / 'oracle' / 'target' / 'release' / 'oracle'


def build_oracle():
    """Builds the Rust; nothing is fetched."""
    manifest = ROOT / 'oracle' / 'Cargo.toml'
    built = subprocess.run([needs.cargo(), 'build', '--quiet', '--release', '--offline', '--manifest-path', manifest])
    if built.returncode != 0:
        needs.stop('the oracle could not be built')


def command(program):
    """How a program is run: the Rust as it is, one of the port by tools/run."""
    return [program] if program == ORACLE else [ROOT / 'tools' / 'run', program]


def answers(asked):
    """What each program answers to its lines, the programs running side by side: a list of lines for each.

    A line ends with a line feed alone. A program that fails ends the comparison.
    """
    with tempfile.TemporaryDirectory() as folder:
        runs = [start(program, lines, pathlib.Path(folder, str(index)))
                for index, (program, lines) in enumerate(asked.items())]
        for program, (run, _) in zip(asked, runs):
            if run.wait() != 0:
                needs.stop(f'{program} ended with status {run.returncode}')
        return [output.read_bytes().decode(errors='replace').split('\n')[:-1] for _, output in runs]


def start(program, lines, place):
    """Starts a program on these lines: the run, and the file that it writes to."""
    given, output = place.with_suffix('.given'), place.with_suffix('.answers')
    given.write_bytes(''.join(line + '\n' for line in lines).encode())
    with open(given, 'rb') as asked, open(output, 'wb') as answered:
        return subprocess.Popen(command(program), stdin=asked, stdout=answered), output
