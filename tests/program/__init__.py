"""Tests that are run on a built program: `tests/program/NAME PATH_TO_SPMAT`. Each command tells in
its head what it looks at."""
