"""A pytest plugin for networkx' own tests (`-p record`). It writes what the backend served in each
test, as lines of JSON, to the file that RECORD names. It also marks the tests of EXPECTED as
expected failures, with their reasons."""
import collections
import functools
import json
import os
import time

import pytest

EXPECTED = os.path.join(os.path.dirname(os.path.abspath(__file__)), 'expected.txt')
_served, _left = collections.Counter(), collections.Counter()
_rows = {}
_out = open(os.environ['RECORD'], 'w') if os.environ.get('RECORD') else None


def expected():
    """{test: reason}, from lines `test: reason`; a test is FILE::NAME below networkx/."""
    with open(EXPECTED, encoding='utf-8') as file:
        lines = [line.strip() for line in file]
    return dict(line.split(': ', 1) for line in lines if line and not line.startswith('#'))


def pytest_configure(config):
    """Counts the backend's answers. networkx' tests ask for scipy.sparse.sparray, which scipy has
    from 1.11 on."""
    import scipy.sparse
    if not hasattr(scipy.sparse, 'sparray'):
        scipy.sparse.sparray = scipy.sparse._arrays._sparray
    if not os.environ.get('NETWORKX_TEST_BACKEND'):
        return
    from spmat_networkx.backend import backend
    from spmat_networkx.backend_info import SERVED
    for name in SERVED:
        setattr(backend, name, _counted(name, getattr(backend, name)))
    backend.can_run = _watched(backend)


def _counted(name, function):
    @functools.wraps(function)
    def counted(*args, **kwargs):
        try:
            answer = function(*args, **kwargs)
        except NotImplementedError as fault:
            _left['%s: %s' % (name, fault)] += 1
            raise
        _served[name] += 1
        return answer
    return counted


def _watched(backend):
    """What says whether a call can be run: networkx' tests take the reasons why it can't."""
    can_run = backend.can_run

    def watched(name, args, kwargs):
        can_run(name, args, kwargs)
        said = backend.reason(name, args, kwargs) or True
        if said is not True:
            _left['%s: %s' % (name, said)] += 1
        return said
    return watched


def test_name(item_id):
    """FILE::NAME below networkx/, whatever folder it lies in."""
    return item_id.split('networkx/', 1)[-1]


def pytest_collection_modifyitems(items):
    if os.environ.get('NETWORKX_TEST_BACKEND'):
        for item in items:
            reason = expected().get(test_name(item.nodeid))
            if reason:
                item.add_marker(pytest.mark.xfail(reason='expected: ' + reason, strict=True))


def pytest_runtest_setup(item):
    _served.clear()
    _left.clear()
    _rows[item.nodeid] = {'test': test_name(item.nodeid), 'began': time.time()}


def pytest_runtest_logreport(report):
    row = _rows.setdefault(report.nodeid, {'test': test_name(report.nodeid), 'began': time.time()})
    if report.when == 'call' or report.outcome != 'passed':
        row['outcome'] = ('xfailed' if hasattr(report, 'wasxfail') and report.skipped
                          else report.outcome)
        row['why'] = (str(getattr(report, 'wasxfail', ''))[:200]
                      or (str(report.longrepr)[-3000:] if report.failed else ''))
    if report.when == 'teardown':
        row.update(served=dict(_served), left=dict(_left),
                   seconds=round(time.time() - row.pop('began'), 4))
        if _out:
            _out.write(json.dumps(row) + '\n')
            _out.flush()
        _rows.pop(report.nodeid, None)
