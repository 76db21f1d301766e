"""Counts the words and the sentences of pages: headings, tables, blocks of code, pictures and
comments are left out, and code between backticks is a word. So is a list of such names."""
import re
from typing import Iterator, List, NamedTuple, Tuple

ABBREVIATIONS = re.compile(r'\b(e\.g|i\.e|etc|vs|St|No)\.')
NAMES = re.compile(r'Code(?:(?:,| and| or|, and|, or) Code)+')
END_OF_SENTENCE = re.compile(r'(?<=[.!?])["\')*_]*\s+(?=["\'(*_`\[]*[A-Z0-9`])|(?<=:)\s*\n')


class Prose(NamedTuple):
    """How much prose a text has: its words, and the lengths of its sentences in words."""
    words: int
    sentences: List[int]

    @property
    def mean(self) -> float:
        """Words a sentence."""
        return self.words / max(1, len(self.sentences))


def paragraphs(text: str) -> List[str]:
    """The paragraphs and the items of lists of a page, each on one line."""
    text = re.sub(r'^```.*?^```|<!--.*?-->', '\n', text, flags=re.M | re.S)
    found: List[str] = []
    is_open = False
    for line in text.split('\n'):
        if not line.strip() or re.match(r'#|\||!\[|    ',
                                        line) and not (is_open and line.startswith('    ')):
            is_open = False
        elif re.match(r'\s*([-*]|\d+\.) ', line) or not is_open:
            found.append(re.sub(r'^\s*([-*]|\d+\.) ', '', line))
            is_open = True
        else:
            found[-1] += ' ' + line.strip()
    return found


def sentences(text: str) -> Iterator[Tuple[str, int]]:
    """The sentences of a page, each with how many words it has."""
    for paragraph in paragraphs(text):
        # code and a page's name may begin a sentence
        plain = re.sub(r'`[^`]*`', 'Code', re.sub(r'\[[\w./-]+\.md\]', '[Page]', paragraph))
        plain = NAMES.sub('Code', re.sub(r'!?\[([^\]]*)\]\([^)]*\)', r'\1', plain))
        plain = ABBREVIATIONS.sub(lambda found: found.group(0).replace('.', ''), plain)
        for sentence in END_OF_SENTENCE.split(plain):
            words = len(re.findall(r"[A-Za-z0-9][\w'’.,^/-]*", sentence))
            if words:
                yield sentence, words


def prose_of(text: str) -> Prose:
    """Counts a page."""
    lengths = [words for _, words in sentences(text)]
    return Prose(sum(lengths), lengths)
