"""Steps of loops, and the same rounds by hand."""
import graphs
import spmat
from spmat.loops.rounds import of_two

NEXT = spmat.semiring('any', spmat.asm('binary', 'mov64 r0, r1\nadd64 r0, 1\nexit\n'))
PATH = graphs.undirected('path', 70, [(i, i + 1) for i in range(69)])


def search_step(G):
    def step(s, k):
        new = s.front.mxm(G, NEXT).ewise_add(s.near, 'zero').select('valueeq', k)
        return {'front': new, 'near': new.ewise_add(s.front, 'any')}
    return step


def search(session, graph, source=0, show=('front',)):
    G = graph.matrix(session)
    F = session.from_coo([0], [source], 0, 1, graph.count)
    return spmat.loop(search_step(G), {'front': F, 'near': F}, show)


def lengths(session, graph):
    """Bellman and Ford by columns: each round takes nearly as many steps as it can."""
    W = graph.matrix(session)
    known = session.from_coo(range(graph.count), [0] * graph.count,
                             [0] + [1 << 40] * (graph.count - 1), graph.count, 1)

    def step(s):
        new = W.mxv(s.known, 'min_plus').ewise_add(s.known, 'min')
        return {'known': new, 'changed': new.ewise_add(s.known, 'minus').select('nonzero')}
    return step, {'known': known}


def texts(state):
    return {name: matrix.to_text() for name, matrix in state.items()}


def by_hand(step, state, most):
    """Rounds by the step itself; the state behind the last whole one, how many there were, and what
    was refused."""
    now = dict(state)
    for number in range(1, most + 1):
        try:
            got = of_two(step)(spmat.loops.State(now), number)
            for matrix in got.values():
                matrix.wait()
        except spmat.Refused as fault:
            return now, number - 1, fault
        now = {name: got.get(name, now[name]) for name in now}
    return now, most, None
