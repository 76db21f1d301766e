"""A reference implementation of spmat's protocol, and the protocol's second description:
docs/protocol.md and docs/bpf.md as a program.

It is written to be read, and knows nothing of the product's code. Each module is one page of the
two documents:

    words.py         words of 64 bits, lines of text, refusals
    instructions.py  the opcode tables, assembly's mnemonics, and code in slots (V1 to V6)
    machine.py       a call: its value and its steps
    verifier.py      what an operator may be (V7 to V16), and what `types` says
    assembly.py      assembly text, both ways (A1 to A6)
    matrix.py        matrices
    market.py        matrix text, both ways (M1 to M12)
    prices.py        jobs: what they may be, and their prices (J4, J5, J7 to J9)
    operations.py    jobs: their results and their steps
    session.py       commands, replies and refusals in their order (S1 to S9, J6)

`python3 reference run --steps N --workers W` serves standard input and output as `spmat run` does.
It sets no bound on memory and starts no thread, so it never answers `no memory` or `no thread`.
"""
