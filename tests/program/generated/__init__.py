"""The cases that tests/program/cases makes instead of reading them from tests/cases, a module for
each kind."""
