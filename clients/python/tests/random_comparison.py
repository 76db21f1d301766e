"""Random functions as operators, beside Python: on the plain machine, and where a session is given
through its program too."""
import random
import time
import traceback
import warnings
from dataclasses import dataclass, field
from typing import Dict

import random_functions
import spmat
from operator_model import READY, Plain, meaning, operands_of

CALLS = 30
# What a function may be refused for that no analyst would call a fault of the compiler's.
REFUSALS = ('ways', 'questions', 'shift by a negative', 'division by 0', 'is not in',
            'slots of code', 'stack hold', 'ZeroDivisionError', 'ValueError', 'MemoryError',
            'OverflowError')


@dataclass
class Comparison:
    """How many functions were compared, with how many instructions and calls; how many were
    refused, by the words; and what differed."""
    functions: int = 0
    instructions: int = 0
    calls: int = 0
    through: int = 0
    refused: Dict[str, int] = field(default_factory=dict)
    fault: str = ''


def compared(seed, count, session=None, seconds=None):
    """The comparison of so many random functions, or of those that a time allows; it ends at the
    first difference."""
    out, end = Comparison(), None if seconds is None else time.monotonic() + seconds
    number = 0
    while number < count and (end is None or time.monotonic() < end) and not out.fault:
        _compare('%s/%d' % (seed, number), out, session)
        number += 1
    return out


def _compare(seed, out, session):
    kind, source = random_functions.source(seed)
    function = random_functions.function(source)
    try:
        with warnings.catch_warnings():            # a random function divides by 0 on some ways
            warnings.simplefilter('ignore', RuntimeWarning)
            op = READY[kind](function)
        plain = Plain(op)
    except spmat.CompileError as fault:
        words = next((words for words in REFUSALS if words in str(fault)), None)
        if words is None:
            out.fault = 'seed %s\n%s\n%s' % (seed, source, traceback.format_exc())
        else:
            out.refused[words] = out.refused.get(words, 0) + 1
        return
    except Exception:  # pylint: disable=broad-exception-caught
        # a fault of the compiler's, which is what is looked for
        out.fault = 'seed %s\n%s\n%s' % (seed, source, traceback.format_exc())
        return
    out.functions += 1
    out.instructions += plain.instructions
    calls = _calls(seed, kind, function)
    out.calls += len(calls)
    for operands, expected in calls:
        got, steps = plain.run(operands)
        if got != expected or steps > plain.instructions or op(*operands) != expected:
            out.fault = 'seed %s: of %s it gives %d, and not %d\n%s\n%s' % (seed, operands, got,
                                                                            expected, source,
                                                                            op.text)
    if session is not None and kind != 'index' and calls and not out.fault:
        _through(session, op, calls, out, 'seed %s\n%s\n%s' % (seed, source, op.text))


def _calls(seed, kind, function):
    """Operands and what the model expects of them, where it has a word for it: none of numbers
    alone, as 1 << -3."""
    dice, calls = random.Random(seed + 'calls'), []
    for _ in range(CALLS):
        operands = operands_of(dice, kind)
        try:
            calls.append((operands, meaning(function, operands)))
        except (ValueError, ZeroDivisionError, OverflowError, MemoryError):
            pass
    return calls


def _through(session, op, calls, out, words):
    """The same calls by a session's program."""
    columns = range(len(calls))
    parts = [session.from_coo([0] * len(calls), columns, list(part), 1, len(calls))
             for part in zip(*(operands for operands, _ in calls))]
    made = parts[0].apply(op) if op.kind == 'unary' else parts[0].ewise_mult(parts[1], op)
    got = made.to_list()
    out.through += len(calls)
    if got != [expected for _, expected in calls]:
        out.fault = '%s\nthrough the program %s, and not %s' % (words, got,
                                                                [expected for _, expected in calls])
