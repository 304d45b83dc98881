"""What the tools need of the machine: where it is, and one line and exit status 2 where it is missing."""
import os
import pathlib
import shutil
import subprocess
import sys

ROOT = pathlib.Path(__file__).resolve().parent.parent


def stop(line):
    """Ends with one line that says what is needed."""
    print(f'{pathlib.Path(sys.argv[0]).name}: {line}', file=sys.stderr)
    sys.exit(2)


if sys.version_info < (3, 9):
    stop('needs Python 3.9 or later')


def command(name, what):
    """The program of that name on the PATH."""
    found = shutil.which(name)
    if not found:
        stop(f'needs {what}: there is no {name} on the PATH')
    return pathlib.Path(found)


def cargo():
    return command('cargo', 'a Rust compiler')


def machine():
    """The kind of processor."""
    return os.uname().machine


def kit():
    """The folder of the Rattle kit, where the rt on the PATH stands."""
    return command('rt', 'the Rattle kit').resolve().parent.parent


def crate(name):
    """The folder of a crate."""
    return ROOT / 'crates' / name


def program(name):
    """Where rt leaves the program of a crate."""
    return crate(name) / 'out' / name


def described():
    """The processor's model as the system names it, its kind, and the kit."""
    lines = pathlib.Path('/proc/cpuinfo').read_text().splitlines()
    models = [line.split(':')[1].strip() for line in lines if line.startswith('model name')]
    kind = f'{models[0]} ({machine()})' if models else machine()
    return f'{kind}, {(kit() / "KIT-ID").read_text().strip()}'


def sources(name):
    """The sources of a crate and of those that it depends on."""
    import repository  # not above: that needs this module
    crates = repository.in_order(repository.crates(), [name])
    return [source for name in crates for source in (crate(name) / 'src').rglob('*.rt')]


def built(path):
    """Ends if there is no such program. If it is ours and a source of it is newer, `rt run` proves and builds it first."""
    if not path.is_file():
        stop(f'there is no program {path}: rt run builds those of this repository')
    made, ours = path.stat().st_mtime, path.resolve() == program(path.name)
    if ours and any(source.stat().st_mtime > made for source in sources(path.name)):
        asked = subprocess.run([command('rt', 'the Rattle kit'), 'run'], cwd=crate(path.name), stdin=subprocess.DEVNULL,
                               capture_output=True)
        if asked.returncode:
            stop(f'rt run, in crates/{path.name}, does not prove the sources as they are')


def run(main):
    """Runs main and ends with what it answers; a stop by the user and a reader that went away leave no trace."""
    try:
        status = main()
        sys.stdout.flush()
    except KeyboardInterrupt:
        os._exit(130)
    except BrokenPipeError:
        os._exit(141)
    sys.exit(status)
