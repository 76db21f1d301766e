"""Cases at size, whose inputs are made here. They show what only a large input shows, such as a
limit that no rule names, or memory that isn't freed.

Each case is a function of a program, and raises `Wrong` to say what the program got wrong.
"""
import random
from tests.lib.commands import (EXIT, INCREMENT, RESULT_IS_OPERAND, add, assembly_command,
                                instruction, matrix_command, matrix_text, operator_command,
                                run_words, show_reply, signed, wide_load)
from tests.lib.limits import MOST_MATRIX_BYTES, MOST_OPERATOR_BYTES, MOST_PRICE, MOST_SLOTS
from tests.lib.runs import Wrong, expect, run_session
from tests.lib.witness import Witness

PIECE = 8192


def many_entries(count, of_row=150):
    """Entries in rows of so many, with values of all lengths and both signs."""
    return [(at // of_row + 1, at % of_row + 1, signed(at * 0x9e3779b97f4a7c15, 64) >> at % 64)
            for at in range(count)]


def mapped(entries, function):
    return [(row, column, signed(function(value), 64)) for row, column, value in entries]


def thirty_thousand_entries(program):
    """A matrix is read, mapped and shown."""
    entries = many_entries(30000)
    text, result = matrix_text(200, 150, entries), matrix_text(200, 150,
                                                               mapped(entries,
                                                                      lambda value: value + 1))
    run_session(program, run_words(), matrix_command('A', text) + operator_command('inc', INCREMENT)
                + b'apply B inc A\nrun\nshow B\nshow A\nquit\n',
                b'ok matrix 200 150 30000\nok op 3 3\nok queued 1 90000\nok run 1 90000\nB 200 '
                b'150 30000 90000\n' + show_reply(result) + show_reply(text) + b'ok quit\n')


def sixty_four_jobs_of_a_thousand_entries(program):
    """Each job of a full queue maps the result of the batch before."""
    entries, input_, output = many_entries(1000), b'', b'ok matrix 7 150 1000\nok op 3 3\n'
    for batch in range(2):
        source = b'A' if batch == 0 else b'B63'
        for job in range(64):
            input_ += b'apply B%d inc %s\n' % (job, source)
            output += b'ok queued %d 3000\n' % (job + 1)
        input_ += b'run\n'
        output += b'ok run 64 192000\n' + b''.join(b'B%d 7 150 1000 3000\n' % job
                                                   for job in range(64))
    result = matrix_text(7, 150, mapped(entries, lambda value: value + 2))
    run_session(program, run_words(),
                matrix_command('A', matrix_text(7, 150, entries))
                + operator_command('inc', INCREMENT) + input_ + b'show B17\n',
                output + show_reply(result))


def operators_of_4096_slots(program):
    """Operators as long as they may be: of one step a slot, of wide loads, and with a jump over the
    rest."""
    word, jump = 0xfedcba9876543210, MOST_SLOTS - 3
    steps = RESULT_IS_OPERAND + add(1) * (MOST_SLOTS - 2) + EXIT
    loads = wide_load(0, 0) * (MOST_SLOTS // 2
                               - 2) + wide_load(0, word) + RESULT_IS_OPERAND.replace(
                                   b'10', b'00') + EXIT
    by_offset = RESULT_IS_OPERAND + instruction(0x05, offset=jump) + EXIT * (MOST_SLOTS - 2)
    by_immediate = RESULT_IS_OPERAND + instruction(0x06, immediate=jump) + EXIT * (MOST_SLOTS - 2)
    entries = [(1, 1, 41), (1, 2, -(1 << 63)), (1, 3, (1 << 63) - 1)]
    input_, output = matrix_command('A', matrix_text(1, 3, entries)), b'ok matrix 1 3 3\n'
    for name, code, count, taken, function in [('steps', steps, 4096, 4096,
                                                lambda value: value + 4094),
                                               ('loads', loads, 2049, 2049, lambda value: word),
                                               ('by_offset', by_offset, 4096, 3,
                                                lambda value: value),
                                               ('by_immediate', by_immediate, 4096, 3,
                                                lambda value: value)]:
        input_ += operator_command(name, code) + b'apply B %s A\nrun\nshow B\n' % name.encode()
        output += b'ok op 4096 %d\nok queued 1 %d\nok run 1 %d\nB 1 3 3 %d\n' % (
            count, 3 * count, 3 * taken, 3 * taken)
        output += show_reply(matrix_text(1, 3, mapped(entries, function)))
    run_session(program, run_words(), input_, output)


def operator_body_of_greatest_length(program):
    """The body may be 262,144 bytes long; the code in it fills 4,096 slots."""
    code = RESULT_IS_OPERAND + add(1) * (MOST_SLOTS - 2) + EXIT
    body = b'\n\t \r'.join(code[at:at + 16] for at in range(0, len(code), 16))
    body += b' ' * (MOST_OPERATOR_BYTES - len(body))
    run_session(program, run_words(), operator_command('a', body) + b'quit\n',
                b'ok op 4096 4096\nok quit\n')


def operator_body_above_greatest_length(program):
    body = b' ' * (MOST_OPERATOR_BYTES + 1 - len(INCREMENT)) + INCREMENT
    run_session(program, run_words(), operator_command('a', body) + b'quit\n', b'no S7\n', 3)


def operator_body_of_too_many_slots(program):
    body = RESULT_IS_OPERAND * (MOST_OPERATOR_BYTES // 16)
    run_session(program, run_words(), operator_command('a', body) + b'quit\n',
                b'no V1 %d\nok quit\n' % MOST_SLOTS)


def assembly_of_greatest_length(program):
    """The text may be 262,144 bytes long, here of 4,096 slots with comments between; one byte more
    is refused."""
    lines = [b'mov64 r0, r1'] + [b'add64 r0, %d' % number
                                 for number in range(MOST_SLOTS - 2)] + [b'exit']
    text = b''.join(line + b' ; ' + b'x' * 40 + b'\r\n' for line in lines)
    text += (b'#' + b'-' * 1022 + b'\n') * ((MOST_OPERATOR_BYTES - len(text)) // 1024)
    text += b'\t' * (MOST_OPERATOR_BYTES - len(text))
    entries = [(1, 1, 41), (1, 2, -1)]
    taken = sum(range(MOST_SLOTS - 2))
    run_session(program, run_words(),
                assembly_command('a', text) + b'dis a\n'
                + matrix_command('A', matrix_text(1, 2, entries)) + b'apply B a A\nrun\nshow B\n'
                + assembly_command('a', text + b'\n'),
                b'ok op 4096 4096\nok dis 4096\n' + b''.join(line + b'\n' for line in lines)
                + b'ok matrix 1 2 2\n' b'ok queued 1 8192\nok run 1 8192\nB 1 2 2 8192\n'
                + show_reply(matrix_text(1, 2, mapped(entries, lambda value: value + taken)))
                + b'no S7\n', 3)


def assembly_of_longest_lines(program):
    """255 lines of 1,024 bytes each; in the same text a line of 1,025 is refused."""
    lines = [b'mov64 r0, r1;'] + [b';'] * 253 + [b'exit #']
    text = b''.join(line + b'-' * (1024 - len(line)) + b'\r\n' for line in lines)
    longer = text.replace(b'exit #', b'exit #-')
    run_session(program, run_words(), assembly_command('a', text) + assembly_command('b', longer)
                + b'dis a\ndis b\n', b'ok op 2 2\nno A1 255\nok dis 2\nmov64 r0, r1\nexit\nno S4\n')


def assembly_of_too_many_slots(program):
    """The line that passes 4,096 slots is named, in a text as long as it may be."""
    text = b'wide r0,5\n' * (MOST_SLOTS // 2) + b'exit\n'
    text += b'exit\n' * ((MOST_OPERATOR_BYTES - len(text)) // 5)
    run_session(program, run_words(), assembly_command('a', text) + b'quit\n',
                b'no A6 %d\nok quit\n' % (MOST_SLOTS // 2 + 1))


def disassembly_of_greatest_length(program):
    """The longest lines that an operator of 4,096 slots may have."""
    lines = [b'st64 r10, -504, -2147483648'] * (MOST_SLOTS - 3) + [b'wide r0, -9223372036854775808',
                                                                   b'exit']
    text = b''.join(line + b'\n' for line in lines)
    run_session(program, run_words(), assembly_command('a', text) + b'dis a\n',
                b'ok op 4096 4095\nok dis 4095\n' + text)


def types_of_4096_slots(program):
    """A line for each instruction: places at all distances, branches that leave registers mixed,
    and slots never reached."""
    skipped = MOST_SLOTS - 1 - 512 - 3 - 2
    text = (b'mov64 r9, r10\n' + b'add64 r9, -1\n' * 512 + b'jeq64 r1, 0, 1\nmov64 r9, r1\nja %d\n'
            % skipped)
    text += b'mov64 r9, 0\n' * skipped + b'mov64 r0, r1\nexit\n'
    want = [b'u n u u u u u u u u p0']
    want += [b'u n u u u u u u u p%d p0' % place for place in range(0, -513, -1)]
    want += [b'u n u u u u u u u p-512 p0', b'u n u u u u u u u m p0'] + [b'-'] * skipped
    want += [b'u n u u u u u u u m p0', b'n n u u u u u u u m p0']
    run_session(program, run_words(), assembly_command('a', text) + b'types a\n',
                b'ok op 4096 4096\nok types 4096\n'
                + b''.join(b'%d %s\n' % numbered for numbered in enumerate(want)))


def branches_of_4096_slots(program):
    """2,046 branches, so more paths than could be followed one by one. What all of them store may
    be loaded, and no byte more."""
    branch = b'jeq64 r1, 0, 1\nst8 r10, -1, 1\n'
    text = b'st16 r10, -2, 7\n' + branch * 2046 + b'%s\nja 0\nexit\n'
    run_session(program, run_words(), assembly_command('a', text % b'ldx16 r0, r10, -2')
                + assembly_command('b', text % b'ldx32 r0, r10, -4'),
                b'ok op 4096 4096\nno V16 4093\n')


def shuffled_symmetric_matrix(program):
    """100,000 entries of a symmetric text in no order, out of both triangles, with comments between
    and CR LF."""
    side, count = 1000, 100000
    chance = random.Random(1)
    places = [(place // side + 1, place % side + 1)
              for place in chance.sample(range(side * side), count)]
    given = {}
    for row, column in places:
        if (column, row) not in given:
            given[row, column] = chance.randint(-1 << 63, (1 << 63) - 1)
    lines = [b'%%MatrixMarket matrix coordinate integer symmetric', b'% shuffled',
             b'%d %d %d' % (side, side, len(given))]
    for (row, column), value in given.items():
        lines.append(b' %d\t%d  %+d' % (row, column, value))
        if value % 16 == 0:
            lines.append(b'  % a comment')
    whole = {**given, **{(column, row): value for (row, column), value in given.items()}}
    shown = matrix_text(side, side,
                        [(row, column, value) for (row, column), value in sorted(whole.items())])
    run_session(program, run_words(), matrix_command('A', b'\r\n'.join(lines)) + b'\nshow A\n',
                b'ok matrix %d %d %d\n' % (side, side, len(whole)) + show_reply(shown))


def numbered(side, order):
    """The entries of a full square matrix in an order; the value of each is its number by rows."""
    return [(number // side + 1, number % side + 1, number) for number in order]


def orders_of_a_million(program):
    """A million entries by row, by column and in no order are one matrix; a symmetric text of half
    of them, and one of all."""
    side, count = 1000, 1000000
    orders = [range(count), [place % side * side + place // side for place in range(count)],
              [place * 700001 % count for place in range(count)]]
    shown = show_reply(matrix_text(side, side, numbered(side, range(count))))
    input_ = b''.join(matrix_command('A', matrix_text(side, side, numbered(side, order)))
                      + b'show A\n' for order in orders)
    half = [entry for entry in numbered(side, range(count)) if entry[0] >= entry[1]]
    text = matrix_text(side, side, half).replace(b'general', b'symmetric', 1)
    whole = sorted([*half, *((column, row, value) for row, column, value in half if row > column)])
    read = b'ok matrix %d %d %d\n' % (side, side, count)
    run_session(program, run_words(), input_ + matrix_command('A', text) + b'show A\n',
                (read + shown) * len(orders) + read + show_reply(matrix_text(side, side, whole)))


def position_given_again_at_the_end(program):
    """The last line of a long text repeats the position of an early one."""
    entries = many_entries(30000)
    text = matrix_text(200, 150, entries + [entries[7]])
    run_session(program, run_words(), matrix_command('A', text) + b'show A\n',
                b'no M8 30003\nno S4\n')


def matrix_body_of_greatest_length(program):
    """The body may be 268,435,456 bytes long, and is read whole before it is refused."""
    body = b'%' * (MOST_MATRIX_BYTES - 7) + b'budget\n'
    run_session(program, run_words(0), b'matrix A %d\n' % len(body) + body + b'quit\n',
                b'no M11 1\nok quit\n')


def matrix_body_of_comments(program):
    """A body of the greatest length that is read: comments, and one entry at its end."""
    head, entry = b'%%MatrixMarket matrix coordinate integer general\n1 1 1\n', b'1 1 5\n'
    comments, rest = divmod(MOST_MATRIX_BYTES - len(head) - len(entry), 1024)
    body = head + (b'%' * 1023 + b'\n') * comments + b'\n' * rest + entry
    run_session(program, run_words(0), b'matrix A %d\n' % len(body) + body + b'show A\n',
                b'ok matrix 1 1 1\n' + show_reply(matrix_text(1, 1, [(1, 1, 5)])))


def price_of_two_to_the_32(program):
    """A price may be 2^32: of 1,048,576 entries with 4,096 instructions each. One entry more is too
    many. The steps would do."""
    operator = RESULT_IS_OPERAND * (MOST_SLOTS - 1) + EXIT
    entries = [(row, 1, 0) for row in range(1, MOST_PRICE // MOST_SLOTS + 2)]
    fits, above = matrix_text(1048577, 1, entries[:-1]), matrix_text(1048577, 1, entries)
    input_ = (operator_command('long', operator) + matrix_command('A', fits)
              + matrix_command('B', above) + b'apply C long B\napply C long A\nbudget\nshow B\n')
    run_session(program, run_words(MOST_PRICE + MOST_SLOTS), input_,
                b'ok op 4096 4096\nok matrix 1048577 1 1048576\nok matrix 1048577 1 1048577\n'
                b'no J8\nok queued 1 4294967296\nok budget 4096 4294967296 0\n' + show_reply(above))


def ten_thousand_names(program):
    """Matrices and operators under many names, each found again."""
    numbers = range(10000)
    texts = [matrix_text(1, 1, [(1, 1, number)]) for number in numbers]
    input_ = b''.join(matrix_command('n%d' % number, texts[number]) for number in numbers)
    input_ += b''.join(operator_command('n%d' % number, INCREMENT) for number in numbers)
    input_ += b''.join(b'show n%d\n' % number for number in numbers)
    run_session(program, run_words(), input_, b'ok matrix 1 1 1\n' * 10000 + b'ok op 3 3\n' * 10000
                + b''.join(show_reply(text) for text in texts))


def fifty_thousand_commands(program):
    run_session(program, run_words(), b'budget\n' * 50000,
                b'ok budget 4611686018427387904 0 0\n' * 50000)


def most_held(witness, program, input_, refused=0, status=0, workers=1):
    """The most bytes that a session held, which gives all of them back at its end, and of which so
    many commands are refused."""
    done, counts = witness.run([program] + run_words(workers=workers), input_)
    expect('status', status, done.returncode)
    expect('commands refused', refused, done.stdout.count(b'\nno '))
    # the C library keeps the stack of a thread that ended for the next one, with a block for each
    expect('blocks held at the end', 0, max(counts.blocks - (workers if workers > 1 else 0), 0))
    return counts.most_bytes


def bytes_held(program):
    """What sessions hold at most, in bytes for each entry, slot or name: about a tenth more than
    this version needs."""
    count = 30000
    matrix = matrix_command('A', matrix_text(200, 150, many_entries(count)))
    backwards = matrix_command('A', matrix_text(200, 150, many_entries(count)[::-1]))
    apply = operator_command('inc', INCREMENT) + b'apply B inc A\n'
    four = b'apply C inc A\napply D inc A\napply E inc A\nrun\n'
    longest = RESULT_IS_OPERAND + add(1) * (MOST_SLOTS - 2) + EXIT
    lines = b'mov64 r0, r1\n' + b'add64 r0, 1\n' * (MOST_SLOTS - 2) + b'exit\n'
    plus = assembly_command('plus', b'mov64 r0, r1\nadd64 r0, r2\nexit\n', 'binary')
    wide = matrix_command('W',
                          matrix_text(1, count, [(1, column, 1) for column in range(1, count + 1)]))
    tall = matrix_command('T',
                          matrix_text(count, 1, [(row, 1, row) for row in range(1, count + 1)]))
    products = b''.join(b'product n%d plus plus W T\n' % number for number in range(64))
    sessions = [
        ('a row', matrix_command('A', matrix_text(1 << 22, 1, [])), 1 << 22, 9),
        ('an entry that is read', matrix, count, 38),
        ('an entry that is read and shown', matrix + b'show A\n', count, 48),
        ('an entry that is read, mapped and shown', matrix + apply + b'run\nshow B\n', count, 67),
        ('an entry that is mapped four times', matrix + apply + four, count, 114),
        ('an entry of a text that goes backwards', backwards, count, 38),
        ('a row of a column that 64 products are by', wide + tall + plus + products + b'run\n',
         count, 100),
        ('a slot', b''.join(operator_command('n%d' % number, longest) for number in range(100)),
         100 * MOST_SLOTS, 178),
        ('a slot of assembly',
         b''.join(assembly_command('n%d' % number, lines) for number in range(100)),
         100 * MOST_SLOTS, 178),
        ('a name',
         b''.join(matrix_command('n%d' % number, matrix_text(1, 1, [])) for number in range(5000)),
         5000, 350),]
    with Witness() as witness:
        for what, input_, units, bound in sessions:
            held = most_held(witness, program, input_)
            if held > bound * units:
                raise Wrong('%s: %.1f bytes, above %d' % (what, held / units, bound))


def memory_is_given_back(program):
    """A session that does the same again and again holds no more than the first two times. Blank
    lines make each round as long as some of the pieces in which the program reads, so that bodies
    come in the same pieces in every round."""
    matrix = matrix_command('A', matrix_text(200, 150, many_entries(30000)))
    again = (matrix + operator_command('inc', INCREMENT)
             + operator_command('unset', instruction(0xbf, 0, 3) + EXIT)
             + assembly_command('two', b'mov64 r0, r1\nadd64 r0, 2\nexit\n')
             + matrix_command('refused', b'%%MatrixMarket')
             + b'apply B inc A\napply C two A\nrun\nshow B\ndis two\ntypes two\n')
    again += b'\n' * (-len(again) % PIECE)
    with Witness() as witness:
        twice, often = (most_held(witness, program, again * times, 2 * times) for times in (2, 12))
        if often > twice:
            raise Wrong('%d bytes after 2 rounds, %d after 12' % (twice, often))


LARGE_CASES = {
    'thirty-thousand-entries': thirty_thousand_entries,
    'sixty-four-jobs-of-a-thousand-entries': sixty_four_jobs_of_a_thousand_entries,
    'operators-of-4096-slots': operators_of_4096_slots,
    'operator-body-of-greatest-length': operator_body_of_greatest_length,
    'operator-body-above-greatest-length': operator_body_above_greatest_length,
    'operator-body-of-too-many-slots': operator_body_of_too_many_slots,
    'assembly-of-greatest-length': assembly_of_greatest_length,
    'assembly-of-longest-lines': assembly_of_longest_lines,
    'assembly-of-too-many-slots': assembly_of_too_many_slots,
    'disassembly-of-greatest-length': disassembly_of_greatest_length,
    'types-of-4096-slots': types_of_4096_slots,
    'branches-of-4096-slots': branches_of_4096_slots,
    'shuffled-symmetric-matrix': shuffled_symmetric_matrix,
    'orders-of-a-million': orders_of_a_million,
    'position-given-again-at-the-end': position_given_again_at_the_end,
    'matrix-body-of-greatest-length': matrix_body_of_greatest_length,
    'matrix-body-of-comments': matrix_body_of_comments,
    'price-of-two-to-the-32': price_of_two_to_the_32,
    'ten-thousand-names': ten_thousand_names,
    'fifty-thousand-commands': fifty_thousand_commands,
    'bytes-held': bytes_held,
    'memory-is-given-back': memory_is_given_back,
}
