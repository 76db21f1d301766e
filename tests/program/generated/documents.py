"""Cases that hold the documents to the program: examples, shell functions, and each reply that the
tables of rules in docs/protocol.md and docs/bpf.md show; and every code block of docs/examples.md,
docs/scaling.md and the Python client's README."""
import os
import re
import subprocess
import tempfile
from tests.lib.commands import (BANNER, assembly_command, matrix_command, matrix_text,
                                operator_command, run_words, show_reply)
from tests.lib.paths import TOP
from tests.lib.patience import FOR_A_SESSION
from tests.lib.runs import Wrong, difference, run_session
from tests.program.generated.document_blocks import page_case

PROTOCOL, BPF = 'protocol.md', 'bpf.md'
FIRST_LINE = BANNER.decode().rstrip()


def lines_of(page):
    with open(os.path.join(TOP, 'docs', page)) as file:
        return file.read().split('\n')


def code_block(begins, page=PROTOCOL):
    """The indented block of a page that begins with these words, without its indent."""
    lines = lines_of(page)
    for number, line in enumerate(lines):
        if line.startswith('    ' + begins):
            block = lines[number:]
            end = next(at for at, later in enumerate(block) if not later.startswith('    '))
            return ''.join(later[4:] + '\n' for later in block[:end])
    raise Wrong('docs/%s has no block that begins with %r' % (page, begins))


def tables(begins, page):
    """The rows of each table of a page whose head begins with these words, as dictionaries from its
    heads to the cells."""
    found, lines = [], lines_of(page)
    for number, line in enumerate(lines):
        if line.startswith('| ' + begins):
            heads, rows = cells(line), []
            for later in lines[number + 2:]:
                if not later.startswith('|'):
                    break
                rows.append(dict(zip(heads, cells(later))))
            found.append(rows)
    if not found:
        raise Wrong('docs/%s has no table whose head begins with %r' % (page, begins))
    return found


def cells(line):
    return [cell.strip() for cell in line.strip().strip('|').split('|')]


def quoted(cell):
    """What stands between backticks in a cell."""
    return re.findall('`([^`]*)`', cell)


def text_of(lines):
    return ''.join(line + '\n' for line in lines).encode()


def expect_reply(program, command, reply):
    run_session(program, run_words(), command, reply.encode() + b'\n')


def protocol_example(program):
    run_session(program, run_words(100), code_block('matrix A 62').encode(),
                code_block('ok matrix 1 1 1').encode())


def protocol_operators(program):
    """The two ways to upload an operator, each with the page's replies to `dis` and `types`."""
    asm, code = code_block('asm inc unary 30').split('op ')
    replies = 'ok op 3 3\n' + code_block('ok dis 3') + code_block('ok types 3')
    for upload in (asm, 'op ' + code):
        run_session(program, run_words(), (upload + 'dis inc\ntypes inc\n').encode(),
                    replies.encode())


def run_shell(script, folder, program):
    os.symlink(program, os.path.join(folder, 'spmat'))
    path = {**os.environ, 'PATH': folder + os.pathsep + os.environ['PATH']}
    return subprocess.run(['sh', '-c', script], cwd=folder, env=path, stdout=subprocess.PIPE,
                          timeout=FOR_A_SESSION).stdout


def protocol_client(program):
    """The shell client gets the replies of the example, less the one to `quit`."""
    with tempfile.TemporaryDirectory(prefix='spmat-client-') as folder:
        said = run_shell(code_block('send()') + code_block("printf '%%%%MatrixMarket"), folder,
                         program)
    want = code_block('ok matrix 1 1 1').encode().replace(b'ok quit\n', b'')
    if said != want:
        raise Wrong(difference(want, said))


def dependent_jobs(program):
    """A job doesn't see the result of one that waits: it is refused, or uses what stood there."""
    jobs = code_block('product T plus times A A').encode()
    ready = b''.join(assembly_command(name, text_of(['mov64 r0, r1', word + '64 r0, r2', 'exit']),
                                      'binary')
                     for name, word in (('plus', 'add'), ('times', 'mul')))
    one, ten, both, square = (matrix_text(1, 1, [(1, 1, value)]) for value in (3, 10, 13, 9))
    begin, begun = ready + matrix_command('A', one), b'ok op 3 3\nok op 3 3\nok matrix 1 1 1\n'
    run_session(program, run_words(), begin + jobs,
                begun + b'ok queued 1 6\nno S4\nok run 1 3\nT 1 1 1 3\n')
    run_session(program, run_words(), begin + matrix_command('T', ten) + jobs + b'show T\nshow D\n',
                begun
                + b'ok matrix 1 1 1\nok queued 1 6\nok queued 2 3\nok run 2 6\nT 1 1 1 3\nD 1 1 '
                b'1 3\n' + show_reply(square) + show_reply(both))


def length_too_small(program):
    """A body that lacks its last byte may be a text too; the rest is a command that tells it."""
    text = matrix_text(2, 2, [(2, 2, 66)]).rstrip(b'\n')
    run_session(program, run_words(), b'matrix A %d\n' % (len(text) - 1) + text + b'\nshow A\n',
                b'ok matrix 2 2 1\nno S1\n' + show_reply(matrix_text(2, 2, [(2, 2, 6)])))


def byte_order_mark(program):
    """A byte-order mark is refused, and what the page says takes it away."""
    text = b'\xef\xbb\xbf' + matrix_text(1, 1, [(1, 1, 5)])
    rest = subprocess.run(['sh', '-c', 'tail -c +4'], input=text, stdout=subprocess.PIPE,
                          timeout=FOR_A_SESSION).stdout
    run_session(program, run_words(), matrix_command('A', text) + matrix_command('A', rest),
                b'no M1 1\nok matrix 1 1 1\n')


def slots_of_lines(program):
    """The shell function that counts slots agrees with `types`."""
    text = text_of(['; a comment', 'mov64 r0, r1 # another', '', 'wide r2, 5', 'add64 r0, r2',
                    'exit'])
    with tempfile.TemporaryDirectory(prefix='spmat-slots-') as folder:
        with open(os.path.join(folder, 'a.asm'), 'wb') as file:
            file.write(text)
        counted = run_shell(code_block('slots()', BPF) + 'slots a.asm', folder, program)
    done = subprocess.run([program] + run_words(), input=assembly_command('a', text) + b'types a\n',
                          stdout=subprocess.PIPE, timeout=FOR_A_SESSION)
    want, got = ([line.split()[0] for line in lines if line]
                 for lines in (done.stdout.split(b'\n')[2:], counted.split(b'\n')))
    if want != got or len(got) != 4:
        raise Wrong('slots %r, counted %r' % (want, got))


def matrix_rules(program):
    """Each example of a refused matrix text."""
    for row in tables('Rule | Fault | Example | Reply', PROTOCOL)[0]:
        lines, reply = quoted(row['Example']), quoted(row['Reply'])[0]
        if lines and not lines[0].startswith('%%MatrixMarket'):
            lines = [FIRST_LINE] + lines
        text = text_of(lines) if lines else text_of([FIRST_LINE, '%' * 1025])
        expect_reply(program, matrix_command('A', text), reply)


FILTERED = [
    ('whole', 'coordinate real general', ['% made by hand', '2 2 3', '1 1 3.0', '1 2 -4e+00',
                                          '2 2 12345678901'],
     (2, 2, [(1, 1, 3), (1, 2, -4), (2, 2, 12345678901)])),
    ('from_array', 'array integer general', ['2 3', '1', '2', '3', '-9223372036854775808', '', '5',
                                             '+6'],
     (2, 3, [(1, 1, 1), (1, 2, 3), (1, 3, 5), (2, 1, 2), (2, 2, -9223372036854775808), (2, 3, 6)])),
    ('from_skew', 'coordinate integer skew-symmetric', ['3 3 3', '2 1 5', '3 1 -7', '3 2 +9'],
     (3, 3, [(1, 2, -5), (1, 3, 7), (2, 1, 5), (2, 3, -9), (3, 1, -7), (3, 2, 9)])),
    ('add_up', 'coordinate integer symmetric', ['3 3 4', '2 1 5', '1 2 5000000000', '3 3 1',
                                                '% more', '1 1 2'],
     (3, 3, [(1, 1, 2), (1, 2, 5000000005), (2, 1, 5000000005), (3, 3, 1)])),
    ('add_up', 'coordinate integer general', ['2 2 3', '2 1 5', '1 2 4', '2 1 -7'],
     (2, 2, [(1, 2, 4), (2, 1, -2)])),]


def matrix_filters(program):
    """Each shell function for a file that is refused makes a text of it that is read."""
    for name, kind, lines, matrix in FILTERED:
        refused = text_of(['%%MatrixMarket matrix ' + kind] + lines)
        done = subprocess.run(['sh', '-c', code_block('whole()') + name], input=refused,
                              stdout=subprocess.PIPE, timeout=FOR_A_SESSION)
        reply = 'ok matrix %d %d %d\n' % (matrix[0], matrix[1], len(matrix[2]))
        run_session(program, run_words(), matrix_command('A', done.stdout) + b'show A\n',
                    reply.encode() + show_reply(matrix_text(*matrix)))


def assembly_rules(program):
    """Each example of a refused line of assembly text."""
    for row in tables('Rule | Fault | Examples', BPF)[0]:
        lines = quoted(row['Examples']) or [{'A1': ';' * 1025, 'A6': ''}[row['Rule']]]
        for line in lines:
            text = text_of([line]) if line else b''
            expect_reply(program, assembly_command('a', text), 'no %s 1' % row['Rule'])


def code_rules(program):
    """Each example of refused code."""
    for row in tables('Rule | Fault | Slot named | Example', BPF)[0]:
        code, reply = quoted(row['Example'])
        expect_reply(program, operator_command('a', code.encode()), reply)


def verifier_rules(program):
    """Each smallest program is refused, and the fixed one is accepted."""
    for row in tables('Rule | What is wrong', BPF)[0]:
        expect_reply(program, assembly_command('a', text_of(quoted(row['The smallest program']))),
                     quoted(row['Reply'])[0])
        mended = quoted(row['Fixed'])
        expect_reply(program, assembly_command('a', text_of(mended)),
                     'ok op %d %d' % (len(mended), len(mended)))


def worked_operators(program):
    """The code of each operator that is shown byte by byte stands for the assembly beside it."""
    for rows in tables('Slot | Assembly | Code', BPF):
        lines = [quoted(row['Assembly'])[0] for row in rows]
        code = ' '.join(quoted(row['Code'])[0] for row in rows).encode()
        reply = 'ok op %d %d\nok dis %d\n' % ((len(lines),) * 3)
        run_session(program, run_words(), operator_command('a', code) + b'dis a\n',
                    reply.encode() + text_of(lines))


def notebook(program):
    """The notebook's cells give what it shows."""
    done = subprocess.run([os.path.join(TOP, 'tools', 'notebook'), '--check'],
                          env={**os.environ, 'SPMAT': os.path.abspath(program)},
                          stdout=subprocess.PIPE, stderr=subprocess.STDOUT, text=True,
                          timeout=FOR_A_SESSION)
    if done.returncode:
        raise Wrong(done.stdout)


DOCUMENT_CASES = {
    'examples': page_case('docs/examples.md'),
    'scaling': page_case('docs/scaling.md'),
    'start': page_case('docs/start.md'),
    'notebook': notebook,
    'python': page_case('docs/python.md'),
    'protocol-example': protocol_example,
    'protocol-operators': protocol_operators,
    'protocol-client': protocol_client,
    'protocol-dependent-jobs': dependent_jobs,
    'protocol-length-too-small': length_too_small,
    'protocol-byte-order-mark': byte_order_mark,
    'operators-slots': slots_of_lines,
    'protocol-matrix-rules': matrix_rules,
    'protocol-matrix-filters': matrix_filters,
    'operators-assembly-rules': assembly_rules,
    'operators-code-rules': code_rules,
    'operators-verifier-rules': verifier_rules,
    'operators-worked': worked_operators,
}
