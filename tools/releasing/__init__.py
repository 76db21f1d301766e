"""What `tools/release` is made of.

    tree      the repository: its version, its commit, its files, its toolchain
    look      what stands against a release
    gate      what the gate notes of the program that passed it
    wheels    the two wheels of the Python client
    debian    the two Debian packages, and the manual pages
    archive   the program with its manual and units as a tar.xz
    parts     the libraries of others in the program, and their licences
    bill      the list of what is in the program, in CycloneDX's form
"""
