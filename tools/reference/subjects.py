"""The subjects of the reference, in order, each with the names that it shows. A new name that no
subject has is shown at the end."""
import importlib
import inspect
from typing import Dict, List, NamedTuple, Sequence, Tuple


class Subject(NamedTuple):
    """A heading, and the members of a class or the functions below it."""
    title: str
    names: Tuple[str, ...]


SESSION = (
    Subject('Open, run, close', ('connect', 'run', 'runs', 'jobs', 'budget', 'close')),
    Subject('Build a matrix', ('from_edgelist', 'from_coo', 'from_triples', 'from_dense',
                               'from_csr', 'from_csc', 'from_dicts', 'from_text', 'full', 'ones',
                               'identity', 'adopt')),
    Subject('Convert from other libraries',
            ('from_networkx', 'from_pandas_edgelist', 'from_scipy_sparse')),
    Subject('Read and save files', ('read_graph', 'read_edgelist', 'mmread', 'save', 'load')),
    Subject('Look at an operator', ('check', 'dis', 'types')),)
MATRIX = (
    Subject('Shape, names and state', ('shape', 'nvals', 'dtype', 'nodes', 'row_nodes',
                                       'column_nodes', 'directed', 'index', 'price', 'steps',
                                       'wait', 'waits')),
    Subject('Apply and select', ('apply', 'select', '__getitem__', 'get', 'assign')),
    Subject('Element-wise operations', ('ewise_add', 'ewise_mult', 'ewise_union', 'isequal',
                                        'isclose')),
    Subject('Products', ('mxm', 'mxv', 'vxm', 'power', 'kronecker')),
    Subject('Reductions', ('reduce_rowwise', 'reduce_columnwise', 'reduce_scalar')),
    Subject('Transpose, masks, copies', ('T', 'S', 'V', 'without', 'diag', 'dup', 'update', 'split',
                                         'resize', 'reshape')),
    Subject('Results as Python values', ('to_list', 'to_dict', 'to_triples', 'to_coo', 'to_dicts',
                                         'to_csr', 'to_csc', 'to_edgelist', 'by_node', 'top')),
    Subject('Convert to other libraries', ('to_dense', 'to_scipy_sparse', 'to_networkx',
                                           'to_pandas', 'to_pandas_edgelist')),
    Subject('Write files', ('to_text', 'mmwrite', 'write_edgelist', 'to_csv', 'to_parquet')),)
OPERATORS = (
    Subject('Make operators', ('asm', 'c', 'code', 'semiring')),
    Subject('Inside functions that become operators',
            ('where', 'udiv', 'umod', 'cdiv', 'cmod', 'rsh', 'ult')),
    Subject('See operators and prices', ('explain', 'code_of', 'price')),
    Subject('Loops and graphs', ('fixpoint', 'loop', 'steady', 'empty', 'bipartite', 'concat')),)
# The modules that users import, and all that distributions built on spmat import of it.
MODULES = ('spmat', 'spmat.algorithms', 'spmat.draw', 'spmat.errors', 'spmat.extending',
           'spmat.limits')
PICTURES = ('spy', 'degree_histogram', 'graph', 'levels', 'route')
BLOCKS = ('Sessions', 'Threads', 'Dask')
OTHERS = 'Others'
RESULTS = 'Results and errors'                     # what algorithms return and raise


def with_others(subjects: Sequence[Subject], names: Sequence[str]) -> List[Subject]:
    """The subjects with those of their names that there are, and behind them what has no
    subject."""
    known = {name for subject in subjects for name in subject.names}
    found = [Subject(subject.title, tuple(name for name in subject.names if name in names))
             for subject in subjects]
    others = tuple(name for name in names if name not in known)
    return [subject for subject in found if subject.names] + ([Subject(OTHERS, others)] if others
                                                              else [])


def algorithms_by_subject(modules: Dict[str, str]) -> List[Subject]:
    """The algorithms by subject: an algorithm is shown where its module is, whose docstring begins
    with the subject. `modules` says in which module each one is. What algorithms return is shown
    last."""
    from spmat.algorithms.registry import ALGORITHMS   # once the page knows where spmat is
    found = []
    for module in sorted({modules[name] for name in ALGORITHMS}):
        words = inspect.getdoc(importlib.import_module('spmat.algorithms.' + module)) or ''
        found.append(Subject(words.partition(':')[0],
                             tuple(name for name, one in modules.items() if one == module)))
    return [subject._replace(title=RESULTS) if subject.title == OTHERS else subject
            for subject in with_others(found, list(modules))]
