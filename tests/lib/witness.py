"""Runs a program with memory_witness.c between it and the C library. It makes allocations fail and
counts blocks."""
import os
import shutil
import struct
import subprocess
import tempfile
from collections import namedtuple

from tests.lib.patience import FOR_A_SESSION

SOURCE = os.path.join(os.path.dirname(os.path.abspath(__file__)), 'memory_witness.c')

# requests made, requests refused, blocks and bytes that the program held at its end, and the most
# bytes that it held
Counts = namedtuple('Counts', 'requests refused blocks bytes most_bytes')


class Witness:
    """The preloaded library, in a folder of its own that goes with it."""

    def __init__(self):
        self.folder = tempfile.TemporaryDirectory(prefix='spmat-witness-')
        self.library = os.path.join(self.folder.name, 'memory_witness.so')
        self.page = os.path.join(self.folder.name, 'counts')
        made = os.path.join(self.folder.name, 'memory_witness.o')
        toolchain = os.path.join(os.path.dirname(os.path.realpath(shutil.which('rt') or '')), '..',
                                 'toolchain', 'bin')
        subprocess.run([os.path.join(toolchain, 'clang'), '-O1', '-fPIC', '-fno-builtin', '-c',
                        SOURCE, '-o', made], check=True)
        subprocess.run([os.path.join(toolchain, 'ld.lld'), '-shared', made, '-o', self.library],
                       check=True)

    def __enter__(self):
        return self

    def __exit__(self, *_):
        self.folder.cleanup()

    def run(self, words, data, refused=(0, 0)):
        """Runs a program on an input while the requests of a range are refused, and answers what it
        did and its counts. The input is a file, which is read in pieces of the same sizes each
        time, so that the counts are the same too."""
        with open(self.page, 'wb') as page:
            page.truncate(4096)
        environment = {'LD_PRELOAD': self.library, 'MEMORY_WITNESS': self.page,
                       'REFUSED_FROM': str(refused[0]), 'REFUSED_TO': str(refused[1])}
        with tempfile.TemporaryFile() as given:
            given.write(data)
            given.seek(0)
            done = subprocess.run(words, stdin=given, stdout=subprocess.PIPE,
                                  stderr=subprocess.PIPE, env=environment, timeout=FOR_A_SESSION)
        with open(self.page, 'rb') as page:
            counts = Counts(*struct.unpack('<5Q', page.read(40)))
        if counts.requests == 0:
            raise OSError('%s saw no request for memory' % SOURCE)
        return done, counts
