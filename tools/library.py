"""The library that the Python client loads, crates/spmat_lib/out/libspmat.so.

`rt ci` proves the crate spmat_lib, but builds no static library. So the prover builds it here, over
the statements of the crates below it that `rt ci` left in a folder. The toolchain's own compiler
then links it with the toolchain's heap.
"""
import os
import subprocess

from proving import kit, prover_words, run_prover

NAME = 'spmat_lib'
LIBRARY = 'libspmat.so'


def build(folder: str) -> str:
    """The path of the library, built in a folder whose crates `rt ci` has proved.
    CalledProcessError, with what was said, where a command fails."""
    top = os.path.join(folder, 'crates', NAME)
    made, links = os.path.join(top, 'out'), kit() + '/toolchain'
    archive, library = (os.path.join(made, name) for name in ('lib%s.a' % NAME, LIBRARY))
    os.makedirs(made, exist_ok=True)
    run_prover('build', [*prover_words(NAME, folder), '--backend', 'llvm', '--toolchain', links,
                         '-o', archive], top).check_returncode()
    subprocess.run([links + '/bin/clang', '--target=x86_64-unknown-linux-gnu', '-shared',
                    '-nostdlib', '-fuse-ld=%s/bin/ld.lld' % links, '-o', library,
                    '-Wl,--whole-archive', archive, '-Wl,--no-whole-archive',
                    kit() + '/c/liblibc_c.a', links + '/lib/libc.so.6', '-Wl,-z,defs',
                    '-Wl,-soname,' + LIBRARY], cwd=made, stdin=subprocess.DEVNULL,
                   stdout=subprocess.PIPE, stderr=subprocess.STDOUT, text=True, errors='replace',
                   check=True)
    return library
