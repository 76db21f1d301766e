"""What a distribution of its own imports of spmat: public names alone."""
import ast
import glob
import importlib
import os
import pathlib
import sys

import support

sys.path.append(support.TOP)

from tools.reference.subjects import MODULES      # noqa: E402


def list_imports(path):
    """The line, the module and the name of each import of a file; the name is empty if the module
    itself is imported."""
    tree = ast.parse(pathlib.Path(path).read_text('utf-8'))
    for node in ast.walk(tree):
        if isinstance(node, ast.Import):
            yield from ((node.lineno, alias.name, '') for alias in node.names)
        elif isinstance(node, ast.ImportFrom) and not node.level:
            yield from ((node.lineno, node.module, alias.name) for alias in node.names)


def find_private(package):
    """Imports of spmat in a package's folder that users couldn't write: of modules that the
    reference doesn't list, and of names that these don't give. In words."""
    for path in sorted(glob.glob(os.path.join(package, '**', '*.py'), recursive=True)):
        for line, module, name in list_imports(path):
            if module.partition('.')[0] != 'spmat' or name == '__version__':
                continue
            place = '%s:%d: %s' % (os.path.basename(path), line, '.'.join(filter(None, (module,
                                                                                        name))))
            if '%s.%s' % (module, name) in MODULES:
                continue
            if module not in MODULES:
                yield place + ': the reference lists no module ' + module
            elif name and name not in getattr(importlib.import_module(module), '__all__', [name]):
                yield '%s: %s has no public name %s' % (place, module, name)
            elif name.startswith('_'):
                yield place + ': the name is private'
