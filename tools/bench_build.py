"""Builds the two programs that are timed: that of the port out of the text of bench_program, and oracle/timing.

It needs a kit that compiles a program with no proof to try it at each level, as rattle-kit-5b did: a clang of our own
stands in for the kit's and keeps what is made at -O3. Later kits try a program only with checks built in. On Arm the module that the kit would compile for x86-64 is compiled for Arm too: so no side is emulated.
"""
import shutil
import subprocess

import bench_program
import needs
import repository
from bench_lines import LINES
from needs import ROOT

FOLDER = ROOT / 'target' / 'bench'
TIMING = ROOT / 'oracle' / 'target' / 'timing' / 'timing'
KEEPING = '''#!/bin/sh
# The kit's clang; what it makes at -O3 is kept.
"{clang}" "$@" || exit
case " $* " in *' -O3 '*) cp module.bc module.o "{folder}" ;; esac
'''
ARM = 'aarch64-unknown-linux-gnu'


def run(*command, why):
    """Runs a command in the folder, and stops with what it says if it fails; what it writes."""
    FOLDER.mkdir(parents=True, exist_ok=True)
    ended = subprocess.run([str(word) for word in command], cwd=FOLDER, capture_output=True, text=True)
    if ended.returncode != 0:
        needs.stop(f'{why}:\n{ended.stdout}{ended.stderr}'.rstrip())
    return ended.stdout


def libraries(kit):
    """The words that name each library and its source: the crates that are called, those below them, and the kit's."""
    called = [path.split('::')[0] for line in LINES for _, path in line.calls]
    own = [(name, ROOT / 'crates' / name) for name in repository.in_order(repository.crates(), called)]
    folders = [*own, *((name, kit / 'libs' / name) for name in ('std', 'io', 'libc'))]
    return [word for name, folder in folders for word in ('--lib', f'{name}={folder}/src/lib.rt')]


def keep_toolchain(tools):
    """A toolchain folder like the kit's, with the clang that keeps what it makes."""
    own = FOLDER / 'toolchain'
    shutil.rmtree(own, ignore_errors=True)
    (own / 'bin').mkdir(parents=True)
    (own / 'lib').symlink_to((tools / 'lib').resolve())
    for tool in (tools / 'bin').iterdir():
        if tool.name != 'clang':
            (own / 'bin' / tool.name).symlink_to(tool)
    clang = own / 'bin' / 'clang'
    clang.write_text(KEEPING.format(clang=tools / 'bin' / 'clang', folder=FOLDER))
    clang.chmod(0o755)
    return own


def compile_port(kit, tools, compilers):
    """Leaves module.bc and module.o, as the kit makes them at -O3."""
    main, empty, toolchain = FOLDER / 'main.rt', FOLDER / 'empty', keep_toolchain(tools)
    main.write_text(bench_program.program())
    empty.write_text('')
    words, why = [main, '--crate-name', 'bench', *libraries(kit)], 'the program of the port could not be compiled'
    run(compilers / 'rattle-print-mir', *words, why=why)  # says what is wrong, if anything is
    run(compilers / 'rattle-cases', '--toolchain', toolchain, '--stdin', empty, *words, why=why)


def for_arm(tools):
    """Compiles the module for this machine: its text with Arm's layout and triple."""
    clang, why = (tools / 'bin' / 'clang', '--no-default-config'), 'the port could not be compiled for Arm'
    (FOLDER / 'empty.c').write_text('int x;\n')
    as_text = ('-S', '-emit-llvm', '-o', '-')
    layout = [line for line in run(*clang, f'--target={ARM}', *as_text, 'empty.c', why=why).splitlines()
              if line.startswith('target ')]
    module = run(*clang, '--target=x86_64-unknown-linux-gnu', *as_text, '-Xclang', '-disable-llvm-passes', '-x', 'ir',
                 'module.bc', why=why)
    module = module.replace(' "target-cpu"="x86-64"', '')
    lines = [line for line in module.splitlines() if not line.startswith('target ')]
    (FOLDER / 'arm.ll').write_text('\n'.join([*layout, *lines, '']))
    run(*clang, f'--target={ARM}', '-ffunction-sections', '-fdata-sections', '-c', '-x', 'ir', 'arm.ll', '-o', 'arm.o',
        '-fPIE', '-O3', why=why)
    run(needs.command('cc', 'a C compiler to link with'), 'arm.o', '-o', 'port', why=why)


def port():
    """The command that runs the port's program, and how it was made."""
    kit, machine = needs.kit(), needs.machine()
    compilers, tools = kit / 'on' / machine / 'bin', kit / 'on' / machine / 'toolchain'
    if not (compilers / 'rattle-cases').is_file():
        needs.stop('this kit compiles a program with no proof only with checks built in, which no time is to be taken of: '
                   'docs/BENCHMARKS.md says with which kit the figures there were got')
    compile_port(kit, tools, compilers)
    if machine == 'aarch64':
        for_arm(tools)
        return [FOLDER / 'port'], 'the module that the kit makes for x86-64, compiled for this Arm machine'
    run(compilers / 'rattle-link', '--target', 'x86_64-unknown-linux-gnu', '--toolchain', tools, '-o', 'port',
        'module.o', why='the program of the port could not be linked')
    return [FOLDER / 'port'], 'as the kit compiles a program, at -O3'


def rust():
    """The command that runs the Rust's program."""
    run(needs.cargo(), 'build', '--quiet', '--offline', '--profile', 'timing', '--package', 'timing', '--manifest-path',
        ROOT / 'oracle' / 'Cargo.toml', why='oracle/timing could not be built')
    return [TIMING]
