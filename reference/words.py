"""Words of 64 bits, the lines and words of a text, and refusals."""
import re
from typing import List

WORD = (1 << 64) - 1
LONGEST_LINE = 1024
WORDS = re.compile(rb'[^ \t]+')
DIGITS, NUMBER, VALUE = re.compile(rb'[0-9]+'), re.compile(rb'[+]?[0-9]+'), re.compile(
    rb'[+-]?[0-9]+')


class Refusal(Exception):
    """A command that is refused, by a rule and the numbers that stand behind it in the reply: a
    slot, a line, or a price and what is left of the budget."""

    def __init__(self, rule: str, *numbers: int) -> None:
        super().__init__(' '.join(['no', rule] + [str(number) for number in numbers]))
        self.rule = rule


def signed(word: int, bits: int = 64) -> int:
    """The signed reading of the low bits of a word."""
    word &= (1 << bits) - 1
    return word - (1 << bits) if word >> (bits - 1) else word


def lines_of(text: bytes) -> List[bytes]:
    """The lines of a text. A line ends at LF, one CR before that LF is dropped, and the last LF may
    be missing."""
    ended = text.split(b'\n')
    last = ended.pop()
    lines = [line[:-1] if line.endswith(b'\r') else line for line in ended]
    return lines + [last] if last else lines


def words_of(line: bytes) -> List[bytes]:
    """The words of a line, which spaces and tabs part."""
    return WORDS.findall(line)


def is_digits(word: bytes) -> bool:
    return DIGITS.fullmatch(word) is not None


def is_number(word: bytes) -> bool:
    """Digits, with an optional `+`."""
    return NUMBER.fullmatch(word) is not None


def is_value(word: bytes) -> bool:
    """Digits, with an optional `+` or `-`."""
    return VALUE.fullmatch(word) is not None


def fits(number: int, bits: int = 64) -> bool:
    """Whether a signed number of so many bits can be this one."""
    return -(1 << (bits - 1)) <= number < 1 << (bits - 1)
