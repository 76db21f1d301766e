"""Ways to write texts: lines, blanks, numbers, comments and line ends; and ways to spoil them."""
import random
from typing import List


def blanks(rng: random.Random) -> str:
    """Blanks that may stand where none have to."""
    return rng.choice(['', '', '', ' ', '\t', ' \t '])


def parted(rng: random.Random) -> str:
    """Blanks where some have to stand."""
    return rng.choice([' ', ' ', ' ', '\t', '  ', ' \t '])


def number(rng: random.Random, value: int) -> str:
    """A number with a sign or with leading zeros, or neither."""
    text = str(abs(value))
    if rng.random() < 0.2:
        text = '0' * rng.randrange(1, 30) + text
    return '-' + text if value < 0 else rng.choice(['', '', '+']) + text


def ended(rng: random.Random, lines: List[bytes], plain: bool) -> bytes:
    """The lines as one text: by LF, by CR and LF, or by both, and with an end behind the last line
    or none."""
    if plain:
        return b''.join(line + b'\n' for line in lines)
    ends = rng.choice([[b'\n'], [b'\r\n'], [b'\n', b'\r\n'],
                       [b'\n', b'\n', b'\n', b'\r\n', b'\r\r\n']])
    text = b''.join(line + rng.choice(ends) for line in lines)
    cut = rng.random()
    return text.rstrip(b'\n') if cut < 0.1 else text.rstrip(b'\r\n') if cut < 0.3 else text


def any_byte(rng: random.Random) -> bytes:
    return bytes([rng.choice(b' \t\r\n\0-+019%;#,rxA\v\f\xff' + bytes([rng.randrange(256)]))])


def altered(rng: random.Random, text: bytes) -> bytes:
    """The text with some bytes replaced, put in, taken out or repeated, or cut short."""
    for _ in range(rng.choice([1, 1, 1, 2, 4])):
        at = rng.randrange(len(text) + 1)
        way = rng.randrange(6)
        if way == 0:
            text = text[:at] + any_byte(rng) + text[at + 1:]
        elif way == 1:
            text = text[:at] + any_byte(rng) + text[at:]
        elif way == 2:
            text = text[:at] + text[at + rng.choice([1, 1, 2, 8]):]
        elif way == 3:
            text = text[:at] + text[max(0, at - rng.choice([1, 4, 16])):]
        elif way == 4 and text:
            at %= len(text)
            text = text[:at] + bytes([text[at] ^ 1 << rng.randrange(8)]) + text[at + 1:]
        elif rng.random() < 0.3:
            text = text[:at]
    return text
