"""Functions that tests run at Dask's workers and at its scheduler, which import this module by its
name."""
import collections
import os

from spmat_blocks import worker_store


def computed_again(dask_scheduler):
    """How often tasks of each kind were computed more than once, by what the scheduler wrote
    down."""
    ends = collections.Counter(entry[0] for entry in dask_scheduler.transition_log
                               if entry[1:3] == ('processing', 'memory'))
    out = collections.Counter()
    for key, many in ends.items():
        if str(key).startswith('spmat_') and many > 1:
            out[str(key).split('-')[0]] += many - 1
    return dict(out)


def uploads_of(place, settings):
    """How many texts a worker's session took in because they weren't there."""
    return worker_store.store_of(settings, place).uploads


def program_of(settings):
    """The process below this worker."""
    return worker_store.store_of(settings, 0).session.connection.process


def use_program(path):
    """Has a worker find another program."""
    os.environ['SPMAT'] = path
