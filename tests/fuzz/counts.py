"""What the sessions met: commands, operators, jobs and refusals. And what they are required to
meet, so that a run that met nothing fails."""
import re
from collections import Counter
from typing import List
from reference.instructions import SPELLINGS
from reference.prices import FORMS
from reference.session import WORDS
from reference.session import Session as Served
from .programs import Answer

# All rules of docs/protocol.md and docs/bpf.md. J7 is met by `product` alone: `union` wants
# 16,777,217 entries.
RULES = ['S%d' % n for n in range(1, 10)] + ['A%d' % n
                                             for n in range(1, 7)] + [
                                                 'V%d' % n for n in range(1, 17)]
RULES += ['M%d' % n for n in range(1, 13)] + ['J%d' % n for n in range(4, 10)]


class Counts:
    def __init__(self) -> None:
        self.sessions = 0
        self.bytes = 0
        self.statuses: Counter = Counter()
        self.replies: Counter = Counter()
        self.rules: Counter = Counter()
        self.instructions: Counter = Counter()
        self.jobs: Counter = Counter()
        self.steps = 0

    def served(self) -> type:
        """The reference's session, which counts what it binds and what it runs."""
        counts = self

        class Counted(Served):
            def upload(self, words, body):
                reply = super().upload(words, body)
                if words[0] != 'matrix':
                    program = self.operators[words[1]].program
                    counts.instructions.update({each.spelling for each in program.instructions})
                return reply

            def run(self):
                counts.jobs.update(kind_of(each.job) for each in self.queue)
                before = self.spent
                reply = super().run()
                counts.steps += self.spent - before
                return reply

        return Counted

    def add(self, answer: Answer, length: int) -> None:
        self.sessions += 1
        self.bytes += length
        self.statuses[answer.status] += 1
        self.replies.update(word.decode()
                            for word in re.findall(rb'^ok ([a-z]+)', answer.out, re.MULTILINE))
        self.rules.update(rule.decode() for rule in re.findall(rb'^no ([SAVMJ][0-9]+)(?= |$)',
                                                               answer.out, re.MULTILINE))

    def missing(self) -> List[str]:
        """What should have been met and wasn't."""
        wanted = [(rule, self.rules[rule]) for rule in RULES]
        wanted += [('ok ' + word, self.replies[word]) for word in REPLIES]
        wanted += [('an accepted operator with %s of %s' % (each.mnemonic, ', '.join(each.fields)),
                    self.instructions[each]) for each in SPELLINGS]
        wanted += [('a job: ' + kind, self.jobs[kind]) for kind in JOBS]
        wanted += [('exit status %d' % status, self.statuses[status]) for status in (0, 3)]
        return [what for what, count in wanted if not count]

    def lines(self) -> List[str]:
        commands = sum(self.replies.values()) + sum(self.rules.values())
        return ['%d sessions of %d commands and %d bytes; ended with status 0: %d, 3: %d' % (
            self.sessions, commands, self.bytes, self.statuses[0], self.statuses[3]),
                'replies: ' + counted(self.replies, REPLIES),
                '%d operators accepted, with each of %d kinds of instruction; the rarest %d times'
                % (
                    self.replies['op'], len(SPELLINGS),
                    min(self.instructions[each] for each in SPELLINGS)),
                '%d jobs run for %d steps: %s' % (sum(self.jobs.values()), self.steps,
                                                  counted(self.jobs, JOBS)),
                'refusals: ' + counted(self.rules, RULES)]


def kind_of(job) -> str:
    return job.command + (' thunk' if job.command == 'apply' and job.form.has_thunk
                          else '') + (' mask' if job.mask else '')


REPLIES = ['op', 'queued'] + [word for word in WORDS if word not in ('asm', 'op')]
JOBS = [name + mask for name in ['apply', 'apply thunk'] + list(FORMS)[1:]
        for mask in ('', ' mask')]


def counted(counts: Counter, names: List[str]) -> str:
    return ', '.join('%s %d' % (name, counts[name]) for name in names)
