"""Faults that are planted into copies of the reference, one at a time. The fuzzer must find
each."""
import importlib
import os
import shutil
import stat
import sys
import tempfile
import time
from typing import Callable, NamedTuple, Optional
from reference import __file__ as reference_file
from .programs import Program, reference_answer
from .scripts import random_session

SECONDS_TO_FIND = 60
REFERENCE = os.path.dirname(os.path.abspath(reference_file))


class Plant(NamedTuple):
    """A fault: in this module these words in place of those."""

    what: str
    module: str
    old: str
    new: str


PLANTS = [
    Plant('union and both call with their operands exchanged', 'operations', 'a[j], b[j]) for j',
          'b[j], a[j]) for j'), Plant('a product folds by descending index', 'operations',
                                      'for x, y in pairs]', 'for x, y in pairs[::-1]]'),
    Plant('a product under a mask makes all calls', 'operations', '  if lets_pass(job.mask, i, j):',
          '  if True:'), Plant('a reduction calls for its first entry too', 'operations',
                               'first, *rest = words', 'first, rest = 0, words'),
    Plant('apply hands on row and column exchanged', 'operations', 'lambda j: (i, j,',
          'lambda j: (j, i,'), Plant('the price of a masked product counts all rows', 'prices',
                                     'items() if masked(i) for k', 'items() for k'),
    Plant('the price of a masked union forgets the mask', 'prices', 'job.matrices + [job.mask]',
          'job.matrices'), Plant('a price of 2^32 is refused', 'prices', 'price > MOST_STEPS',
                                 'price >= MOST_STEPS'),
    Plant('shapes that fit are not asked of a union', 'prices', "in ('union', 'both') and",
          "in ('both',) and"), Plant('modulo by 0 is 0', 'machine', 'a % b if b else a',
                                     'a % b if b else 0'),
    Plant('shifts of 32 bits are masked by 63', 'machine', 'a << (b & (bits - 1))',
          'a << (b & 63)'), Plant('a wide load counts two steps', 'machine', 'steps += 1',
                                  'steps += each.spelling.slots'),
    Plant('a load that extends the sign clears it', 'machine',
          "signed(word, spelling.bits) & WORD if", "word if"),
    Plant('ways that meet keep what the first knows', 'verifier', 'Known(tuple(tags), one.',
          'Known(one.tags, one.'), Plant('a byte that one of two ways stored is stored', 'verifier',
                                         'one.stored & other', 'one.stored | other'),
    Plant('the end of an access is not looked at', 'verifier', 'place + size <= 0', 'place < 0'),
    Plant('a jump to its own slot is accepted', 'verifier', 'each.target <= each.slot',
          'each.target < each.slot'), Plant('a register field of 11 is accepted', 'instructions',
                                            'fields[register] > TOP', 'fields[register] > TOP + 1'),
    Plant('the second slot of a wide load may hold more', 'instructions', 'second[:4] != bytes(4)',
          'not second'), Plant('a number is looked at before a register', 'assembly',
                               'if is_register_word(operand):\n            if',
                               'if is_register_word(operand) == (spelling.fields[-1] == '
                               'field):\n            if'),
    Plant('all CRs before an LF are dropped', 'words', '[line[:-1] if', "[line.rstrip(b'\\r') if"),
    Plant('an end of the last line opens a line', 'words', '[last] if last else lines', '[last]'),
    Plant('the limit of a symmetric text is the other one', 'market', 'MOST_SYMMETRIC = 8388608',
          'MOST_SYMMETRIC = MOST'), Plant('a mirrored position may come again', 'market',
                                          'if j in cells.get(i, {}):',
                                          'if j in cells.get(i, {}) and j <= i:'),
    Plant('S8 names the whole budget', 'session', "price, self.left)",
          "price, self.left + self.reserved)"), Plant('what a job did not take stays reserved',
                                                      'session', 'self.left += price - steps',
                                                      'self.left += 0'),
    Plant('of two results of one name the first is kept', 'session',
          'self.matrices[job.out] = matrix',
          'self.matrices[job.out] = matrix if lines == [] else self.matrices.get(job.out, matrix)'),
    Plant('a 65th job waits', 'session', 'MOST_JOBS = 64', 'MOST_JOBS = 65'),
    Plant('a line of 1,025 bytes is read', 'words', 'LONGEST_LINE = 1024', 'LONGEST_LINE = 1025'),
    Plant('KIND is looked at before the body', 'session', "    length = int(words[-1])\n",
          "    length = int(words[-1])\n    if len(words) == 4 and words[2] not in OPERANDS:\n  "
          "      raise Refusal('S2')\n"),]
AS_A_PROGRAM = PLANTS[3]


def planted(plant: Plant, folder: str) -> str:
    """A copy of the reference with a fault; the name of its package."""
    name = 'planted_%d' % PLANTS.index(plant)
    shutil.copytree(REFERENCE, os.path.join(folder, name),
                    ignore=shutil.ignore_patterns('__pycache__'))
    path = os.path.join(folder, name, plant.module + '.py')
    with open(path) as file:
        text = file.read()
    if text.count(plant.old) != 1:
        raise ValueError('%s.py has %r %d times' % (plant.module, plant.old, text.count(plant.old)))
    with open(path, 'w') as file:
        file.write(text.replace(plant.old, plant.new))
    return name


def sessions_until(differs: Callable) -> Optional[int]:
    """The number of sessions after which one differs; None where none does within a
    minute of the processor."""
    end, number = time.process_time() + SECONDS_TO_FIND, 0
    while time.process_time() < end:
        if differs(random_session('plant-%d' % number)):
            return number + 1
        number += 1
    return None


def answers_otherwise(served: type) -> Callable:
    """Whether a server of the same shape gives another answer, or none."""
    def differs(session) -> bool:
        try:
            return reference_answer(session) != reference_answer(session, served)
        except Exception:       # whatever a planted fault leads to
            return True
    return differs


def self_test() -> int:
    """Plants each fault, and tells after how many sessions it is found. One of them is run as a
    program, as the product is."""
    missed = 0
    with tempfile.TemporaryDirectory(prefix='spmat-plants-') as folder:
        sys.path.insert(0, folder)
        for plant in PLANTS:
            served = importlib.import_module(planted(plant, folder) + '.session').Session
            missed += told(plant.what, sessions_until(answers_otherwise(served)))
        missed += told('as a program: ' + AS_A_PROGRAM.what,
                       sessions_until(program_differs(folder)))
    print('fuzz: %d of %d planted faults found' % (len(PLANTS) + 1 - missed, len(PLANTS) + 1))
    return 1 if missed else 0


def program_differs(folder: str) -> Callable:
    """A fault in a copy that is run in a process of its own."""
    shutil.move(os.path.join(folder, 'planted_%d' % PLANTS.index(AS_A_PROGRAM)),
                os.path.join(folder, 'reference'))
    main = os.path.join(folder, 'reference', '__main__.py')
    os.chmod(main, os.stat(main).st_mode | stat.S_IXUSR)
    program = Program(main)
    return lambda session: reference_answer(session) != program.answer(session)


def told(what: str, sessions: Optional[int]) -> int:
    found = ('NOT FOUND in %d seconds' % SECONDS_TO_FIND if sessions is None
             else 'found by session %d' % sessions)
    print('%s: %s' % (what, found), flush=True)
    return sessions is None
