"""Tests of the built program and of the release, and what they share. Tests of Rattle code are
crates (crates/*_tests), or are in the crate that they test; tests of the Python client are in
clients/python/tests.

    cases/      sessions as bytes, by subject
    program/    tests of a program: cases, sizes, memory, texts, code, opcodes, and `spmat serve`
    fuzz/       random and altered sessions, compared with the reference implementation
    networkx/   networkx' own tests with the client as its backend, and its functions on random
                graphs
    client      the client's types and style
    one         single tests, by name
    snippets    the files of packaging/ that the documents name, tried by the programs that they are
                for; packaging/ has its tests
    release     tools/release in copies of the tree; releases/ has its tests
    packages    the packages in fresh roots, by hand
    site        the site, in a headless browser
    quick       tests of a change in a few minutes, with no proof
    lib/        commands, sessions, replies, limits, measured figures
"""
