"""The Rattle program of the benchmark, as text: it reads columns and a file, and times one line after the other.

Nothing of it is proved, and it is no part of the port.
"""
import re

import bench_signatures
import needs
from bench_files import FILE_IN
from bench_inputs import GIVEN, NUMBERS, PARTITIONS, SECOND, SIX
from bench_line import COPIES, LENT, RESULTS, WORK, copy, functions, values_of
from bench_lines import LINES

# What a block of a reduction counts for; a round counts for 1.
BLOCK = 10_000
# For each type of data that a call answers: where it stands, and the number that it counts for.
ANSWERS = {
    '()': ('', '0'),
    'u64': ('', 'done'),
    'bool': ('', 'done as u64'),
    'BlockPartition': ('partition_calls', 'done.count as u64 - 1'),
    'Block': ('partition::block', 'done.end as u64'),
    'Stretch': ('table::cores', '(done.end - done.first) as u64'),
    'Division': ('partition_division', 'done.count'),
    'Table': ('table', 'done.m as u64'),
    'Reordered': ('quotient_cycles', 'done.table.m as u64'),
    'Reduced': ('reduction::answers', f'{BLOCK} * done.table.n as u64 + done.rounds'),
    'Written': ('file_reduction::answers', f'{BLOCK} * done.blocks + done.rounds'),
}
ANSWER = re.compile(r'Answer<(.+)>')
REFUSED = 1_000_000_000
# Room for columns of n, m and n + m + 1 cells, for results and for given lists, at the greatest n and m.
ROOMS = {'n': 4200, 'm': 8400, 'given': 16400, 'n + 1': 4200, 'n + m + 1': 12600, 'given + m + 1': 30000,
         'self_pairs': 8400, 'other_pairs': 8400}


def said(kind):
    """The name of the function that turns an answer with data of this type into a number."""
    return f'said_{"nothing" if kind == "()" else kind.lower()}'


def saying(kind):
    """That function."""
    number = ANSWERS[kind][1]
    return f'''
fn {said(kind)}(answer: Answer<{kind}>) -> u64 {{
    match answer.outcome {{
        Ok({'done' if 'done' in number else '_'}) => {number},
        Err(refusal) => {REFUSED} + refusal.number(),
    }}
}}
'''


def counted(function, text, besides):
    """Statements that make the call and add its answer to the sum; where something else is counted, `true` is due."""
    if function.answer == 'bool' and besides:
        return f'if !{text} {{ sum += {REFUSED}; }}\n'
    data = ANSWER.fullmatch(function.answer)
    if data and data[1] in ANSWERS:
        return f'sum += {said(data[1])}({text});\n'
    forms = {'': '{};\n', 'usize': 'sum += {} as u64;\n', 'bool': 'if {} {{ sum += 1; }}\n',
             'Result<(), Refusal>': 'if let Err(refusal) = {} {{\nsum += refusal.number();\n}}\n',
             'Stretch': 'let rows = {};\nsum += (rows.end - rows.first) as u64;\n',
             "&'a [u16]": 'let part = {};\nsum += part.len() as u64;\n',
             'Block': 'let block = {};\nsum += block.end as u64;\n',
             'Reordered': 'let made = {};\nsum += made.table.m as u64;\n',
             'Reduction': f'let made = {{}};\nsum += {BLOCK} * made.count as u64 + made.rounds as u64;\n'}
    if function.answer not in forms:
        needs.stop(f'tools/bench_program.py has no count for {function.answer}, the answer of {function.path}')
    return forms[function.answer].format(text)


def calls(line):
    """The calls of a line, each answer but the last with its name."""
    values = values_of(line)
    texts = [(function, bench_signatures.call(function, values)) for function in functions(line)]
    named = [f'let {name} = {text};\n' for (name, _), (_, text) in zip(line.calls[:-1], texts)]
    return ''.join(named) + ''.join(counted(function, text, line.counted) for function, text in texts[-1:])


def arm(number, line):
    """What is done in one round of a line."""
    made = calls(line)
    if line.each:
        made = f'let mut each = 0;\nwhile each < n {{\n{made}each += 1;\n}}\n'
    if line.counted:
        made += f'sum += {line.counted} as u64;\n'
    return f'{number} => {{\n{line.before}{made}}}\n'


def uses():
    named = [f'{place}::{kind}' for kind, (place, _) in ANSWERS.items() if place]
    more = ('columns::answers::Answer', 'columns::cells::copy', 'partition::PartitionColumns', 'table::Lts')
    return ''.join(f'use {path};\n' for path in sorted([*named, *more]))


def arrays():
    """Every array: the columns of the partitions, what is given, work, results, and the files."""
    columns = {f'{partition}_{column}': 'n' for partition in (*PARTITIONS, *COPIES) for column in SIX}
    made = {**columns, **GIVEN, **WORK, **RESULTS, **LENT}
    kinds = {**dict.fromkeys(('text', 'file_in', 'file_out'), '0u8; 70000'), 'choice': '0u8; 4200',
             'starts': '0u32; 4200', 'chosen': '0u16; 4200'}
    cells = {**{name: f'0u16; {ROOMS.get(length)}' for name, length in made.items()}, **kinds}
    return ''.join(f'let mut {name} = [{kind}];\n' for name, kind in cells.items())


def reading():
    """The numbers, the columns and the file, in the order of the input, and the copies; the choice as `chosen`."""
    made = ''.join(f'let {name} = head[{place}] as usize;\n' for place, name in enumerate(NUMBERS))
    made += 'if n == 0 {\nreturn;\n}\n' + arrays()
    columns = {f'{partition}_{column}': 'n' for partition in PARTITIONS for column in SIX}
    for name, length in {**columns, **GIVEN}.items():
        made += f'read_column(&mut buffer, &mut {"chosen" if name == "choice" else name}[..{length}]);\n'
    made += f'let got = io::read_full(0, &mut {FILE_IN});\n'
    return made + ''.join(copy(to, origin) for to, origin in COPIES.items())


def program():
    """The whole text."""
    arms = ''.join(arm(number, line) for number, line in enumerate(LINES))
    return f'{uses()}{"".join(map(saying, ANSWERS))}{READERS}{MAIN}'.replace('READING', reading()).replace(
        'ARMS', arms).replace('HEAD', str(len(NUMBERS))).replace('SECOND', str(SECOND))


READERS = '''
fn read_column(buffer: &mut [u8], to: &mut [u16]) {
    let bytes = 2 * to.len();
    let got = io::read_full(0, &mut buffer[..bytes]);
    let mut i = 0;
    while i < to.len() {
        if 2 * i + 1 < got {
            to[i] = buffer[2 * i] as u16 + buffer[2 * i + 1] as u16 * 256;
        }
        i += 1;
    }
}

// Processor time of this process, in nanoseconds.
fn now_ns() -> u64 {
    let mut time = libc::types::timespec { tv_sec: 0, tv_nsec: 0 };
    let failed = libc::clock_gettime(2, &mut time);
    if failed != 0 {
        return 0;
    }
    time.tv_sec as u64 * 1000000000 + time.tv_nsec as u64
}

fn show(n: u64) {
    let a = io::print_decimal(1, n);
    let b = io::write_all(1, b" ");
}
'''

MAIN = '''
fn main() {
    let mut buffer = [0u8; 70000];
    let mut head = [0u16; HEAD];
    read_column(&mut buffer, &mut head);
    READING
    let table = Table { n: n as u16, labels: label_count as u16, m: m as u16, initial: 0 };
    let mut records = [Block { begin: 0, marked_split: 0, end: 0 }; 4200];
    let mut label_counts = [0u16; 4200];
    let some = state % many_count;
    let mut i = 0;
    while i < n {
        choice[i] = chosen[i] as u8;
        label_counts[i] = label_count as u16;
        starts[i + 1] = (given / n * (i + 1)) as u32;
        records[i] = Block { begin: many_begin[i], marked_split: many_marked_split[i], end: many_end[i] };
        i += 1;
    }
    let mut line = first;
    while line < after {
        let mut rounds = 1;
        let mut best = 0;
        let mut batch = 0;
        let mut sum = 0;
        while batch < batches {
            let from = now_ns();
            let mut round = 0;
            sum = 0;
            while round < rounds {
                match line {
                    ARMS
                    _ => {}
                }
                // cells that no call is lent, so that what is read may have changed for all that the compiler knows
                source[8399] = round as u16;
                signed_elements[4199] = round as u16;
                self_labels[8399] = round as u16;
                many_elements[4199] = round as u16;
                records[4199].begin = round as u16;
                label_counts[4199] = round as u16;
                file_in[69999] = round as u8;
                round += 1;
            }
            let took = now_ns() - from;
            if batch == 0 && took < least as u64 * 1000 {
                rounds = rounds * 2;
            } else {
                if batch == 0 || took < best {
                    best = took;
                }
                batch += 1;
                if took >= SECOND {
                    batch = batches;
                }
            }
        }
        show(line as u64);
        show(rounds as u64);
        show(best);
        show(sum / rounds as u64);
        let done = io::write_all(1, b"\\n");
        line += 1;
    }
}
'''
