"""The gallery: a page whose blocks each draw a picture, which stands below the block."""
import os
import re
import subprocess
import sys
import tempfile
from typing import Dict, List

from tools.paths import CLIENT, TOP

PAGE = 'site/gallery.md'
PICTURE = re.compile(r'["\']([a-z_]+\.png)["\']')
MOST_SECONDS = 120


def blocks(text: str) -> List[str]:
    """The blocks of the page, each with the lines that draw."""
    found = re.findall(r'(?:^    .*\n|^\n(?=    ))+', text, re.M)
    return [re.sub(r'^    ', '', block, flags=re.M).strip('\n') + '\n' for block in found
            if 'import spmat' in block]


def draw(folder: str) -> Dict[str, str]:
    """Runs each block of the page, and leaves its pictures in a folder; the paths by the names of
    the pictures. RuntimeError where a block fails, or draws none of the pictures that it names."""
    with open(os.path.join(TOP, PAGE), encoding='utf-8') as file:
        found = blocks(file.read())
    drawn = {}
    for block in found:
        names = PICTURE.findall(block)
        environment = dict(os.environ, PYTHONPATH=CLIENT, MPLBACKEND='Agg')
        with tempfile.TemporaryDirectory() as room:
            os.symlink(os.path.join(TOP, 'docs'), os.path.join(room, 'docs'))
            done = subprocess.run([sys.executable, '-c', block], cwd=room, env=environment,
                                  stderr=subprocess.PIPE, timeout=MOST_SECONDS, check=False,
                                  text=True)
            missing = [name for name in names if not os.path.exists(os.path.join(room, name))]
            if done.returncode or missing or not names:
                raise RuntimeError('a block of %s draws no picture %s:\n%s%s'
                                   % (PAGE, ' '.join(missing), block, done.stderr))
            for name in names:
                drawn[name] = os.path.join(folder, name)
                os.makedirs(folder, exist_ok=True)
                os.replace(os.path.join(room, name), drawn[name])
    return drawn


def page() -> str:
    """The page's text, with each picture behind the block that draws it."""
    with open(os.path.join(TOP, PAGE), encoding='utf-8') as file:
        text = file.read()

    def shown(found: 're.Match[str]') -> str:
        names = PICTURE.findall(found.group(0))
        # the heading above says what the picture shows
        title = re.findall(r'^## (.*)$', text[:found.start()], re.M)[-1:]
        return found.group(0) + ''.join('\n![%s](gallery/%s)\n' % (''.join(title), name)
                                        for name in names)
    return re.sub(r'(?:^    .*\n|^\n(?=    ))+', shown, text, flags=re.M)
