"""The limits of the protocol and of the machine, each once. docs/protocol.md and docs/bpf.md state
them; the reference implementation has its own."""

MEGABYTE = 1 << 20

# rows, columns and entries of a matrix, and multiplications of a product
MOST_SIDE = 1 << 24
MOST_MATRIX_BYTES = 1 << 28             # of the text of a matrix
MOST_OPERATOR_BYTES = 1 << 18           # of the text or the digits of an operator
MOST_SLOTS = 4096                       # of an operator's code
STACK_BYTES = 512
LONGEST_LINE = 1024

MOST_JOBS = 64                          # that wait in a session
MOST_PRICE = 1 << 32                    # of a job
MOST_STEPS = 1 << 62                    # of a budget
MOST_WORKERS = 64
MOST_SESSIONS = 16                      # of a server at one time
CHUNK_ROWS = 256                        # rows that one worker computes at a time
