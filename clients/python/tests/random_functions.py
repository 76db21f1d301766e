"""Random functions as users might write them, as source: expressions, conditions, branches, short
loops, look-ups."""
import random

from operator_model import helper

UNARY = ('-%s', '~%s', 'abs(%s)', '(not %s)', '%s ** 2', '%s ** 3')
METHODS = ('(%s).bit_length()', '(%s).bit_count()')
ARITHMETIC = ('+', '-', '*', '&', '|', '^', '+', '-', '*', '//', '%', '<<', '>>')
COMPARISONS = ('<', '<=', '>', '>=', '==', '!=')
CONSTANTS = (0, 1, 2, 3, 5, 7, 8, 10, 16, 63, 64, 100, -1, -2, -3, -7, -8, 255, 2 ** 31 - 1,
             2 ** 31, -2 ** 31, -2 ** 31 - 1, 2 ** 32, 2 ** 62, 2 ** 63 - 1, -2 ** 63)
DIVISORS = (1, 2, 3, 7, 8, 10, 64, -1, -2, -3, -7, -2 ** 63, 2 ** 63 - 1, 2 ** 40, 1000)
TABLES = ('(3, 1, 4, 1, 5, 9, 2, 6)[%s %% 8]', '[7, -2 ** 40, 0, 1][%s & 3]',
          '{0: 5, 2: -1}.get(%s %% 5, 3)', '((%s & 7) in (1, 4, 6))')
HELPERS = {name: helper(name) for name in ('where', 'rsh', 'udiv', 'umod', 'ult', 'cdiv', 'cmod')}
PARAMETERS = {'unary': ('x',), 'binary': ('x', 'y'), 'index': ('x', 'row', 'column', 'thunk')}


def _is_number(text):
    return text.strip('()').lstrip('-').isdigit()


class Writer:
    """Writes one function; `names` are those that have a value by then."""

    def __init__(self, dice, names):
        self.dice, self.names = dice, list(names)

    def constant(self):
        return '(%d)' % (self.dice.choice(CONSTANTS) if self.dice.random() < 0.7
                         else self.dice.randrange(-20, 20))

    def expression(self, deep):
        dice = self.dice
        if deep <= 0 or dice.random() < 0.12:
            return dice.choice(self.names) if dice.random() < 0.7 else self.constant()
        kind = dice.random()
        if kind < 0.1:
            return '(' + dice.choice(UNARY) % ('(%s)' % self.expression(deep - 1)) + ')'
        if kind < 0.6:
            return self.arithmetic(deep)
        if kind < 0.7:
            return '(%s if %s else %s)' % (self.expression(deep - 1), self.condition(deep - 1),
                                           self.expression(deep - 1))
        if kind < 0.78:
            return 'where(%s, %s, %s)' % (self.condition(deep - 1), self.expression(deep - 1),
                                          self.expression(deep - 1))
        if kind < 0.84:
            return '%s(%s, %s)' % (dice.choice(('min', 'max')), self.expression(deep - 1),
                                   self.expression(deep - 1))
        if kind < 0.9:
            return '(%s)' % self.condition(deep - 1)
        if kind < 0.93:
            return dice.choice(TABLES) % ('(%s)' % self.word(deep - 1))
        if kind < 0.94:
            return dice.choice(METHODS) % self.word(deep - 2)
        return '%s(%s, %s)' % (dice.choice(('rsh', 'udiv', 'umod', 'cdiv', 'cmod')),
                               self.expression(deep - 1),
                               self.expression(deep - 1) if dice.random() < 0.5
                               else self.constant())

    def word(self, deep):
        """An expression that is no number of Python's."""
        text = self.expression(deep)
        return '%s + %s' % (self.dice.choice(self.names), text) if _is_number(text) else text

    def arithmetic(self, deep):
        dice = self.dice
        op = dice.choice(ARITHMETIC)
        left, right = self.expression(deep - 1), self.expression(deep - 1)
        if op in ('<<', '>>') and dice.random() < 0.5:
            right = '(%s & 63)' % right if dice.random() < 0.5 else str(dice.randrange(0, 70))
        if op in ('//', '%') and dice.random() < 0.6:
            right = '(%d)' % dice.choice(DIVISORS)
        if op in ('//', '%') and _is_number(right) and int(right.strip('()')) == 0:
            right = '5'
        if op in ('<<', '>>') and _is_number(right) and int(right.strip('()')) < 0:
            right = '3'
        if _is_number(left) and _is_number(right):
            left = dice.choice(self.names)
        return '(%s %s %s)' % (left, op, right)

    def comparison(self, deep):
        return '%s %s %s' % (self.expression(deep - 1), self.dice.choice(COMPARISONS),
                             self.expression(deep - 1))

    def condition(self, deep):
        dice, kind = self.dice, self.dice.random()
        if kind < 0.55 or deep <= 0:
            return self.comparison(deep)
        if kind < 0.65:
            return '%s & %s' % (dice.choice(self.names), self.constant())
        if kind < 0.8:
            return '(%s) %s (%s)' % (self.condition(deep - 1), dice.choice(('and', 'or')),
                                     self.condition(deep - 1))
        if kind < 0.9:
            return '((%s) %s (%s))' % (self.comparison(deep - 1), dice.choice('&|^'),
                                       self.comparison(deep - 1))
        if kind < 0.95:
            return 'not (%s)' % self.condition(deep - 1)
        return '%sult(%s, %s)' % (dice.choice(('', 'not ')), self.expression(deep - 1),
                                  self.expression(deep - 1))

    def statements(self, count, indent, deep):
        """Lines of a body."""
        lines = []
        for _ in range(count):
            target = self.dice.choice(self.names[-2:] + ['v%d' % self.dice.randrange(3)])
            if target not in self.names:
                lines.append('%s%s = %s' % (indent, target, self.expression(deep)))
                self.names += [target] if indent == '    ' else []
                continue
            lines += self.statement(target, indent, deep)
        return lines

    def statement(self, target, indent, deep):
        dice, kind = self.dice, self.dice.random()
        if kind < 0.35:
            return ['%s%s = %s' % (indent, target, self.expression(deep))]
        if kind < 0.5:
            return ['%s%s %s= %s' % (indent, target, dice.choice('+-*^'),
                                     self.expression(deep - 1))]
        if kind < 0.8 and len(indent) < 12:
            return self.branches(indent, deep)
        if kind < 0.9:
            return ['%sif %s: return %s' % (indent, self.condition(deep - 1),
                                            self.expression(deep - 1))]
        return ['%sfor k in range(%d):' % (indent, dice.randrange(2, 4)),
                '%s    %s = %s + k * %s' % (indent, target, target, self.expression(deep - 2))]

    def branches(self, indent, deep):
        lines = ['%sif %s:' % (indent, self.condition(deep - 1)),
                 *self.statements(1, indent + '    ', deep - 1)]
        if self.dice.random() < 0.3:
            lines += ['%selif %s:' % (indent, self.condition(deep - 1)),
                      *self.statements(1, indent + '    ', deep - 1)]
        if self.dice.random() < 0.5:
            lines += ['%selse:' % indent, *self.statements(1, indent + '    ', deep - 1)]
        return lines


def source(seed):
    """The kind and the source of a function `f`; the same seed gives the same one."""
    dice = random.Random(seed)
    kind = dice.choice(('unary', 'binary', 'binary', 'index'))
    writer = Writer(dice, PARAMETERS[kind])
    head = 'def f(%s):\n' % ', '.join(PARAMETERS[kind])
    if dice.random() < 0.4:
        return kind, head + '    return %s\n' % writer.expression(dice.randrange(1, 6))
    lines = writer.statements(dice.randrange(1, 5), '    ', 3)
    return kind, head + '\n'.join(lines) + '\n    return %s\n' % writer.expression(2)


def function(text):
    """The function of a source."""
    space = dict(HELPERS)
    exec(text, space)  # pylint: disable=exec-used
    return space['f']
