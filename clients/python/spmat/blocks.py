"""The old name of `spmat_blocks`, matrices in row blocks, which is a distribution of its own."""
import sys

from .extras import import_extra

sys.modules[__name__] = import_extra('spmat_blocks', 'spmat.blocks')
