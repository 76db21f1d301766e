"""The contracts that other crates see: what the clauses of exported functions say, and the views of
exported types.

An item is exported where it stands in a module that is public, or where lib.rt names it in a `pub
use`.
"""
import glob
import os
import re
from typing import Iterator, List, NamedTuple, Set, Tuple

from paths import CRATES

FUNCTION = re.compile(r'^( *)(pub(?:\([a-z]+\))? )?(?:const |extern "C" )?fn (\w+)', re.M)
BLOCK = re.compile(
    r'^(?:(?:pub(?:\(\w+\))? )?trait (\w+)|impl(?:<.*?>)? (?:(\w+)(?:<.*?>)? for )?(\w+))', re.M)
ITEM = re.compile(r'^(?:pub(?:\(\w+\))? )?(?:struct|enum|trait) (\w+)', re.M)
CLAUSE = re.compile(r'\{$|;$|^ *(?:requires|ensures) ', re.M)
NEXT_CLAUSE = re.compile(r'(?:\s|//.*)*(?:requires|ensures)\b[^{]*')
BRACE = re.compile('[{}]')
LABEL = re.compile(r'^( *(?:requires|ensures)) \w+ (?=\{)', re.M)
MEMBER = re.compile(r'^ +ghost (?!use|invariant)\w+( = )?[^{,;]*', re.M)
NAMED = re.compile(r'^ *(ensures|requires)\*? (?:(\w+) )?\{', re.M)
FACT = re.compile(r'^ +(?:pub )?ghost (\w+):', re.M)
FIELD = re.compile(r'^ +(?:pub(?:\(\w+\))? )?ghost (?!use|invariant)\w+: [^\n]*,$', re.M)


def read(path: str) -> str:
    with open(path) as file:
        return file.read()


def crate_names() -> List[str]:
    return sorted(os.path.basename(os.path.dirname(path))
                  for path in glob.glob(os.path.join(CRATES, '*', 'src')))


class Block(NamedTuple):
    """An impl block or a trait: where it begins, the trait and the type that it names, each ''
    where it names none."""
    start: int
    of_trait: str
    of_type: str


NO_BLOCK = Block(0, '', '')


class Crate:
    """The sources of one crate, and the names that it exports."""

    def __init__(self, name: str) -> None:
        folder = os.path.join(CRATES, name, 'src')
        self.files = sorted(glob.glob(os.path.join(folder, '**', '*.rt'), recursive=True))
        root = next(path for path in (os.path.join(folder, 'lib.rt'),
                                      os.path.join(folder, 'main.rt')) if os.path.exists(path))
        text = read(root)
        self.open = {root} | {os.path.join(folder, module + '.rt')
                              for module in re.findall(r'^pub mod (\w+);', text, re.M)}
        used = re.findall(r'^pub use [\w:]*?(?:\{([^}]*)\}|(\w+));', text, re.M)
        self.exported = {item.strip() for listed, one in used
                         for item in (listed or one).split(',')}
        for path in self.open:
            self.exported.update(ITEM.findall(read(path)))
        self.is_program = root.endswith('main.rt')
        self.own = {item for path in self.files for item in ITEM.findall(read(path))}

    def sees(self, name: str) -> bool:
        """Whether other crates see a type or trait: one of another crate they do."""
        return name in self.exported or name not in self.own

    def calls(self, path: str) -> Iterator[Tuple[str, str]]:
        """The functions of a file that other crates can call: for a method with its type or trait,
        as `TYPE::FUNCTION`; each with its text from its signature on."""
        text = read(path)
        blocks = blocks_of(text)
        for head in FUNCTION.finditer(text):
            block = block_at(blocks, head.start()) if head.group(1) else NO_BLOCK
            if block.of_trait:
                seen = self.sees(block.of_trait) and self.sees(block.of_type or block.of_trait)
            elif block.of_type:
                seen = head.group(2) == 'pub ' and self.sees(block.of_type)
            else:
                seen = (head.group(2) == 'pub '
                        and (path in self.open or head.group(3) in self.exported))
            if seen:
                holder = block.of_type or block.of_trait
                yield (holder + '::' if holder else '') + head.group(3), text[head.start():]

    def contracts(self, path: str) -> Iterator[str]:
        """The signature and clauses of each function of a file that other crates can call, without
        the clauses' own names."""
        for _, text in self.calls(path):
            yield LABEL.sub(r'\1 ', clauses_of(text))

    def views(self, path: str) -> Iterator[str]:
        """The ghost members and fields of a file's types and traits, but for invariants, that
        contracts of other crates see."""
        text = read(path)
        blocks = blocks_of(text)
        for member in MEMBER.finditer(text):
            block = block_at(blocks, member.start())
            if self.sees(block.of_type) and self.sees(block.of_trait):
                yield text[member.start():end_of_braces(text, member.end())]
        for field in FIELD.finditer(text):
            holder = [found.group(1) for found in ITEM.finditer(text, 0, field.start())]
            if holder and self.sees(holder[-1]):
                yield field.group(0)

    def stated(self, path: str) -> Iterator[str]:
        """What others see of a file; of a program, each of its contracts."""
        if not self.is_program:
            return self.seen(path)
        text = read(path)
        return (LABEL.sub(r'\1 ', clauses_of(text[head.start():]))
                for head in FUNCTION.finditer(text))

    def seen(self, path: str) -> Iterator[str]:
        yield from self.contracts(path)
        yield from self.views(path)


def blocks_of(text: str) -> List[Block]:
    return [Block(found.start(), found.group(1) or found.group(2) or '', found.group(3) or '')
            for found in BLOCK.finditer(text)]


def block_at(blocks: List[Block], at: int) -> Block:
    return next((block for block in reversed(blocks) if block.start < at), NO_BLOCK)


def clauses_of(rest: str) -> str:
    """A function's signature with its clauses, each of one line or of many."""
    first = CLAUSE.search(rest)
    if not first or not first.group(0).lstrip().startswith(('requires', 'ensures')):
        return rest[:first.start()] if first else rest
    end = first.start()
    clause = NEXT_CLAUSE.match(rest, end)
    while clause:
        end = end_of_braces(rest, clause.end())
        clause = NEXT_CLAUSE.match(rest, end)
    return rest[:end]


def end_of_braces(text: str, at: int) -> int:
    """Where the braces end that begin at a place; the place itself where none begin there."""
    depth = 0
    for brace in BRACE.finditer(text, at if text[at:at + 1] == '{' else len(text)):
        depth += 1 if brace.group(0) == '{' else -1
        if not depth:
            return brace.end()
    return at


def promises_of(crate: str, name: str) -> Set[str]:
    """The names of the clauses of a function of a crate, `TYPE::FUNCTION` for a method, `ensures`
    or `requires` for one without a name; of a type, those of its ghost facts, and `invariant`."""
    found: Set[str] = set()
    holder, _, own = name.rpartition('::')
    for path in Crate(crate).files:
        text = read(path)
        blocks = blocks_of(text)
        for head in FUNCTION.finditer(text):
            block = block_at(blocks, head.start()) if head.group(1) else NO_BLOCK
            if head.group(3) == own and holder in ('', block.of_type, block.of_trait):
                labels = NAMED.findall(clauses_of(text[head.start():]))
                found.update(label or kind for kind, label in labels)
        for block, behind in zip(blocks, [*blocks[1:], None]):
            body = text[block.start:behind.start if behind else len(text)]
            if name == block.of_type and re.search(r'^ +ghost invariant =', body, re.M):
                found.add('invariant')
        for item in ITEM.finditer(text):
            if item.group(1) == name:
                found.update(FACT.findall(text[item.start():text.index('\n}', item.start())]))
    return found


def is_public(crate: str, name: str) -> bool:
    """Whether other crates can call a function of a crate, `TYPE::FUNCTION` for a method, or see a
    type. Of a program nobody calls any."""
    known = Crate(crate)
    if known.is_program:
        return False
    called = {each for path in known.files for each, _ in known.calls(path)}
    return (name in called or name in known.exported
            or '::' not in name and any(each.endswith('::' + name) for each in called))


def all_crates() -> List[Crate]:
    return [Crate(name) for name in crate_names()]
