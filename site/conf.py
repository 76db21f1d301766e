"""How Sphinx makes the site from what tools/site lays out: Markdown by MyST, docstrings by
numpydoc, in light and dark, with nothing from elsewhere."""
import os
import sys

sys.path[:0] = [os.environ['SPMAT_TOP'], *(os.path.join(os.environ['SPMAT_TOP'], 'clients', name)
                                           for name in ('python', 'blocks'))]

from tools.siting import docstrings                # noqa: E402 (found by the line above)

project = 'spmat'
release = version = open(os.path.join(os.environ['SPMAT_TOP'], 'VERSION'),
                         encoding='ascii').read().strip()
copyright = 'the authors of spmat, MIT licence'    # pylint: disable=redefined-builtin
extensions = ['myst_parser', 'sphinx.ext.autodoc', 'sphinx.ext.viewcode', 'numpydoc',
              'sphinx_copybutton']
source_suffix = {'.md': 'markdown', '.rst': 'restructuredtext'}
exclude_patterns = ['_build', 'extra']
highlight_language = 'none'
# colours of code that have the contrast of WCAG's AA on their grounds
pygments_style, pygments_dark_style = 'xcode', 'github-dark'

# the headings' anchors are those of the pages in the repository
myst_heading_anchors = 4
# what looks like Python and isn't is shown as it stands
suppress_warnings = ['myst.header', 'misc.highlighting_failure']

html_theme = 'furo'
html_title = 'spmat %s' % release
html_static_path = ['static']
html_favicon = 'static/favicon.svg'
html_css_files = ['spmat.css']
html_extra_path = ['extra']
html_show_sourcelink = False
html_copy_source = False
# what is printed isn't copied, what is typed is
copybutton_selector = 'div.highlight-python pre, div.highlight-bash pre'

autodoc_typehints = 'none'
autodoc_member_order = 'bysource'
autodoc_inherit_docstrings = True
default_role = 'literal'
numpydoc_show_class_members = False
numpydoc_xref_param_type = False
nitpicky = False


def setup(app):
    """Docstrings are prose with Markdown's backticks and indented code, which becomes what Sphinx
    reads before numpydoc has its turn."""
    app.connect('autodoc-process-docstring', docstrings.process, priority=100)
