"""Cases on graphs: random ones, whose results, prices and steps are compared with a plain reference
that goes position by position."""
import random
from tests.lib.commands import assembly_command, matrix_command, matrix_text, run_words, show_reply
from tests.lib.runs import run_session

LOW, HIGH = -(1 << 63), 1 << 63


def wrapped(number):
    return (number - LOW) % (HIGH - LOW) + LOW


def unsigned(number):
    return number % (HIGH - LOW)


class Operator:
    """Assembly text, and what it does: from operands to a value and the steps that the call
    takes."""
    def __init__(self, kind, text, call):
        self.kind, self.text, self.call = kind, text, call
        self.length = len(text.strip().split(b'\n'))


def minimum(x, y):
    return (x, 3) if x <= y else (y, 4)


OPERATORS = {
    'plus': Operator('binary', b'mov64 r0, r1\nadd64 r0, r2\nexit\n',
                     lambda x, y: (wrapped(x + y), 3)),
    'minus': Operator('binary', b'mov64 r0, r1\nsub64 r0, r2\nexit\n',
                      lambda x, y: (wrapped(x - y), 3)),
    'times': Operator('binary', b'mov64 r0, r1\nmul64 r0, r2\nexit\n',
                      lambda x, y: (wrapped(x * y), 3)),
    'min': Operator('binary', b'mov64 r0, r1\njsle64 r1, r2, 1\nmov64 r0, r2\nexit\n', minimum),
    'sixth': Operator('unary', b'mov64 r0, r1\ndiv64 r0, 6\nexit\n',
                      lambda x: (wrapped(unsigned(x) // 6), 3)),
    'below': Operator('index', b'mov64 r0, 1\nadd64 r3, r4\njlt64 r3, r2, 1\nmov64 r0, 0\nexit\n',
                      lambda x, i, j, t: (1, 4) if unsigned(j + t) < i else (0, 5)),
    'place': Operator('index', b'mov64 r0, r2\nmul64 r0, r4\nadd64 r0, r3\nexit\n',
                      lambda x, i, j, t: (wrapped(i * t + j), 4)),
    'odd': Operator('index', b'mov64 r0, r1\nand64 r0, 1\nexit\n',
                    lambda x, i, j, t: (x & 1, 3)),
}


class Matrix:
    def __init__(self, rows, columns, cells):
        self.rows, self.columns, self.cells = rows, columns, cells

    def row(self, i):
        return {j: v for (k, j), v in self.cells.items() if k == i}

    def text(self):
        return matrix_text(self.rows, self.columns,
                           [(i + 1, j + 1, v) for (i, j), v in sorted(self.cells.items())])


class Job:
    """The result of a job position by position, with its price and steps."""
    def __init__(self, rows, columns, mask):
        self.matrix, self.mask, self.price, self.steps = Matrix(rows, columns, {}), mask, 0, 0

    def passing(self, i):
        return range(self.matrix.columns) if self.mask is None else sorted(self.mask.row(i))

    def lesser(self, i, *counts):
        return min(counts if self.mask is None else counts + (len(self.mask.row(i)),))

    def call(self, operator, *operands):
        value, steps = operator.call(*operands)
        self.steps += steps
        return value

    def fold(self, operator, terms):
        so_far = terms[0]
        for term in terms[1:]:
            so_far = self.call(operator, so_far, term)
        return so_far


def applied(operator, a, thunk=None, mask=None):
    return mapped(operator, a, thunk, mask, keeps=False)


def selected(operator, a, thunk, mask=None):
    return mapped(operator, a, thunk, mask, keeps=True)


def mapped(operator, a, thunk, mask, keeps):
    """Each entry's answer, or where the answer decides what is kept the entries themselves."""
    job = Job(a.rows, a.columns, mask)
    for i in range(a.rows):
        job.price += job.lesser(i, len(a.row(i))) * operator.length
        for j in job.passing(i):
            if (i, j) in a.cells:
                x = a.cells[i, j]
                answer = job.call(operator, *((x,) if thunk is None else (x, i, j, thunk)))
                if not keeps:
                    job.matrix.cells[i, j] = answer
                elif answer:
                    job.matrix.cells[i, j] = x
    return job


def united(operator, a, b, mask=None):
    return merged(operator, a, b, mask, copies=True)


def intersected(operator, a, b, mask=None):
    return merged(operator, a, b, mask, copies=False)


def merged(operator, a, b, mask, copies):
    """The answers for positions that both have, and where it copies also what one has alone."""
    job = Job(a.rows, a.columns, mask)
    for i in range(a.rows):
        job.price += job.lesser(i, len(a.row(i)), len(b.row(i))) * operator.length
        for j in job.passing(i):
            here = [m.cells[i, j] for m in (a, b) if (i, j) in m.cells]
            if len(here) == 2:
                job.matrix.cells[i, j] = job.call(operator, *here)
            elif here and copies:
                job.matrix.cells[i, j] = here[0]
    return job


def multiplied(add, mul, a, b, mask=None):
    job = Job(a.rows, b.columns, mask)
    for i in range(a.rows):
        if mask is None or mask.row(i):
            job.price += sum(len(b.row(k)) for k in a.row(i)) * (add.length + mul.length)
        for j in job.passing(i):
            terms = [job.call(mul, x, b.cells[k, j]) for k, x in sorted(a.row(i).items())
                     if (k, j) in b.cells]
            if terms:
                job.matrix.cells[i, j] = job.fold(add, terms)
    return job


def reduced(operator, a, mask=None):
    job = Job(a.rows, 1, mask)
    for i in range(a.rows):
        values = [v for j, v in sorted(a.row(i).items())]
        if values and job.passing(i):
            job.price += (len(values) - 1) * operator.length
            job.matrix.cells[i, 0] = job.fold(operator, values)
    return job


MODELS = {'apply': applied, 'select': selected, 'union': united, 'both': intersected,
          'product': multiplied, 'reduce': reduced}


def job_of(words, matrices):
    """What a command gives, by its words: a form, the name of the result, and names of OPERATORS
    and of these matrices."""
    form, _, *names = words.split()
    mask = matrices[names.pop()] if 'mask' in names else None
    given = [OPERATORS.get(name) or matrices.get(name) or int(name) for name in names
             if name != 'mask']
    return MODELS[form](*given, mask=mask)


def random_matrix(random_, rows, columns):
    share = random_.choice([0, 0.1, 0.3, 0.9])
    return Matrix(rows, columns,
                  {(i, j): random_.choice([0, 1, -1, 7, -5, LOW, HIGH - 1,
                                           random_.randrange(LOW, HIGH)])
                   for i in range(rows) for j in range(columns) if random_.random() < share})


# A command of each form on A, B and C (which has as many rows as A columns), each with how many
# columns its result has.
COMMANDS = [
    ('apply R sixth A', 'as A'), ('apply R place A THUNK', 'as A'),
    ('select R below A THUNK', 'as A'), ('union R minus A B', 'as A'),
    ('both R minus A B', 'as A'), ('product R minus times A C', 'as C'), ('reduce R min A', 'one')]


def random_job(random_, sizes):
    """The words of a job on A, B and C, and what it gives."""
    rows, columns, inner = sizes
    words, width = random_.choice(COMMANDS)
    matrices = {name: random_matrix(random_, *shape)
                for name, shape in (('A', (rows, columns)), ('B', (rows, columns)),
                                    ('C', (columns, inner)))}
    if random_.random() < 0.5:
        words += ' mask M'
        matrices['M'] = random_matrix(random_, rows,
                                      {'as A': columns, 'as C': inner, 'one': 1}[width])
    words = words.replace('THUNK', str(random_.choice([0, 1, -1, 3])))
    return words.encode(), job_of(words, matrices), matrices


def random_jobs(program):
    """200 jobs of all forms, masked or not, on random matrices, some of several chunks."""
    random_ = random.Random(7)
    input_ = b''.join(assembly_command(name, o.text, o.kind) for name, o in OPERATORS.items())
    output = b''.join(b'ok op %d %d\n' % (o.length, o.length) for o in OPERATORS.values())
    for turn in range(200):
        sizes = random_.choice([(0, 3, 2), (3, 0, 2), (1, 1, 1), (4, 5, 3), (7, 7, 7), (9, 20, 4)]
                               + [(600, 3, 2)] * (turn % 20 == 0))
        words, job, matrices = random_job(random_, sizes)
        for name, matrix in matrices.items():
            input_ += matrix_command(name, matrix.text())
            output += b'ok matrix %d %d %d\n' % (matrix.rows, matrix.columns, len(matrix.cells))
        result = job.matrix
        input_ += words + b'\nrun\nshow R\n'
        output += b'ok queued 1 %d\nok run 1 %d\n' % (job.price, job.steps)
        output += b'R %d %d %d %d\n' % (result.rows, result.columns, len(result.cells),
                                        job.steps) + show_reply(result.text())
    run_session(program, run_words(), input_, output)


def column(random_, rows, empty):
    """A column with an entry in each row but some."""
    return Matrix(rows, 1, {(i, 0): random_.randrange(-9, 9) for i in range(rows)
                            if i not in empty})


def jobs_on_columns(program):
    """Index operators on columns, whose entries are gathered together where each of 64 rows has
    one: of fewer rows, of rows that stand in two chunks, and with a row that has none at either end
    of what is gathered."""
    random_ = random.Random(11)
    input_ = b''.join(assembly_command(name, o.text, o.kind) for name, o in OPERATORS.items())
    output = b''.join(b'ok op %d %d\n' % (o.length, o.length) for o in OPERATORS.values())
    for rows, empty in ((1, ()), (63, ()), (64, ()), (65, ()), (257, ()), (600, ()), (600, (0,)),
                        (600, (63,)), (600, (64, 300)), (600, (255, 256)), (600, (599,))):
        matrices = {'A': column(random_, rows, empty), 'M': column(random_, rows, (1, rows - 2))}
        for name, matrix in matrices.items():
            input_ += matrix_command(name, matrix.text())
            output += b'ok matrix %d 1 %d\n' % (rows, len(matrix.cells))
        for words in ('select R odd A 0', 'select R below A 70', 'select R place A 3',
                      'apply R place A -5', 'select R odd A 0 mask M', 'apply R place A 2 mask M'):
            job = job_of(words, matrices)
            input_ += words.encode() + b'\nrun\nshow R\n'
            output += b'ok queued 1 %d\nok run 1 %d\n' % (job.price, job.steps)
            output += b'R %d 1 %d %d\n' % (rows, len(job.matrix.cells),
                                           job.steps) + show_reply(job.matrix.text())
    run_session(program, run_words(), input_, output)


def queue_of_jobs(program):
    """64 jobs on one another's inputs and outputs: names stand for what they stood for at
    submission, and later outputs win."""
    a = Matrix(2, 2, {(0, 0): 1, (0, 1): 2, (1, 0): 3, (1, 1): 4})
    input_ = assembly_command('plus', OPERATORS['plus'].text,
                              'binary') + matrix_command('A',
                                                         a.text()) + matrix_command('B', a.text())
    output = b'ok op 3 3\nok matrix 2 2 4\nok matrix 2 2 4\n'
    for number in range(64):
        left, right, out = [(b'A', b'B', b'B'), (b'B', b'A', b'A'), (b'A', b'A', b'C')][number % 3]
        input_ += b'union %s plus %s %s\n' % (out, left, right)
        output += b'ok queued %d 12\n' % (number + 1)
    input_ += (b'union D plus A A\n' + matrix_command('A', Matrix(1, 1, {}).text())
               + b'run\nshow A\nshow B\nshow C\n')
    output += b'no J6\nok matrix 1 1 0\nok run 64 %d\n' % (64 * 12)
    output += b''.join(b'%s 2 2 4 12\n' % [b'B', b'A', b'C'][number % 3] for number in range(64))
    double = Matrix(2, 2, {at: 2 * value for at, value in a.cells.items()})
    output += show_reply(double.text()) * 3
    run_session(program, run_words(), input_, output)


GRAPH_CASES = {
    'random-jobs': random_jobs,
    'jobs-on-columns': jobs_on_columns,
    'queue-of-64-jobs': queue_of_jobs,
}
