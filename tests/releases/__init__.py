"""Tests of tools/release, in copies of the repository with a commit of their own. `tests/release`
runs them."""
