"""Limits of the protocol, as docs/protocol.md has them.

    MOST_SIDE      rows, columns and entries of a matrix; multiplications of a product
    MOST_TEXT      bytes of a matrix text
    MOST_OPERATOR  bytes of an operator's body
    MOST_SLOTS     slots of an operator's code, and so instructions
    MOST_PRICE     steps of a job
    MOST_STEPS     steps of a session
    MOST_WORKERS   threads of a session
    QUEUE          jobs that may wait
"""
MOST_SIDE = 16_777_216
MOST_TEXT = 268_435_456
MOST_OPERATOR = 262_144
MOST_SLOTS = 4_096
MOST_PRICE = 1 << 32
MOST_STEPS = 1 << 62
MOST_WORKERS = 64
QUEUE = 64
