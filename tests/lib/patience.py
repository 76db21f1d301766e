"""How many seconds tests wait for what should come, each once. The program with run-time checks is
ten times as slow as the built one."""
import os

CHECKED = 'SPMAT_CHECKED'
"""The variable that says that the program is one with run-time checks, so memory and address space
aren't those of the built program."""

_SLOWER = 10 if os.environ.get(CHECKED) else 1
# or for a connection, a line of a log, the end of a server
FOR_A_REPLY = 60.0
FOR_A_FUZZED_SESSION = 60 * _SLOWER
FOR_A_SESSION = 120 * _SLOWER
FOR_A_COMMAND = 600                                # a tool, or a session under valgrind
