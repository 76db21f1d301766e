"""What distributions that are built on spmat import beside what users do. They have backends of
their own, and readers that see a part of a file.

- A backend takes jobs and holds their results: `Backend`, with `Job`, `Handle`, `Run` and kin.
- A matrix is three arrays, `Triples`, and a Matrix Market text: `read_text`, `write_text`.
- `Sources` has every reader of a session, over one method that takes `Triples`.
- Lists of edges, tables and Matrix Market files are read by parts: `read_list`, `edges_of_frame`,
  `MarketReader`. `number_names` gives names numbers, and `Metadata` keeps them.

spmat_blocks is built so. These names may change with a minor version, as versions.md says.
"""
from .algorithms.traversal import Vector, put_column, read_column, read_row, vector_of
from .prices import stop_estimate
from .backends.server import without_frames
from .backends.protocol import AMPLE, Backend, Budget, Handle, Job, JobResult, Run, most_of
from .integers import (LEAST, MOST, side as check_size, whole as check_whole, word as check_word,
                     shown)
from .io.arrays import (DUP_OP, checked as check_entries, columns_of, full as full_entries, indices
                        as check_indices, repeated as refuse_repeated)
from .io.edge_lists import (Form as ListForm, Table as ListTable, as_text as decode_list, lay_out as
                            lay_out_list, read_edges as read_list)
from .io.edges import (FOLDS, Edges, How, Layout, LeftOut, check_direction, choose_value_column,
                       edges_of_frame, number_ascending, number_names)
from .io.files import (Limit as FileLimit, check_length, load as load_file, name_of, opened as
                       open_file, packer_of)
from .io.formats import (OF_LISTS as LIST_FORMATS, PARTED as SEPARATORS, Request,
                               check_format, check_layout, edges_of, has_dictionaries)
from .io.importers import DupOp, Sources
from .io.matrix_market import (Kind as MarketKind, Line as MarketLine, Reader as MarketReader,
                               Values as MarketValues, find_repeated as find_repeated_line, is_plain
                               as is_plain_market, read_lines as read_market_lines)
from .io.matrix_text import (BANNER, HEAD_LINES, PATTERN as PATTERN_BANNER, Triples, as_arrays,
                             head_of as head_of_text, lowered as lower_triangle, mirrored,
                             read_lines, read as read_text, start_of_line, write as write_text)
from .matrix_base import as_constant
from .metadata import BY_POSITIONS, Metadata, NOTHING, Nodes, axis_of
from .operators import Op, find
from .operators.diagnostics import Check
from .scale import of_read as unit_of_read
from .unsupported_syntax import SESSION, missing_attribute
from .vector import as_vector
from .wire.commands import FORMS
from .wire.connection import checked_settings
from .wire.transport import Program, program_words

__all__ = ['AMPLE', 'BANNER', 'BY_POSITIONS', 'Backend', 'Budget', 'Check', 'DUP_OP',
           'DupOp', 'Edges', 'FOLDS', 'FORMS', 'FileLimit', 'HEAD_LINES', 'Handle', 'How', 'Job',
           'JobResult', 'LEAST', 'LIST_FORMATS', 'Layout', 'LeftOut', 'ListForm', 'ListTable',
           'MOST', 'MarketKind', 'MarketLine', 'MarketReader', 'MarketValues', 'Metadata',
           'NOTHING', 'Nodes', 'Op', 'PATTERN_BANNER', 'Program', 'Request', 'Run', 'SEPARATORS',
           'SESSION', 'Sources', 'Triples', 'Vector', 'as_arrays', 'as_constant', 'as_vector',
           'axis_of', 'check_direction', 'check_entries', 'check_format', 'check_indices',
           'check_layout', 'check_length', 'check_size', 'check_whole', 'check_word',
           'checked_settings', 'choose_value_column', 'columns_of', 'decode_list', 'edges_of',
           'edges_of_frame', 'find', 'find_repeated_line', 'full_entries', 'has_dictionaries',
           'head_of_text', 'is_plain_market', 'lay_out_list', 'load_file', 'lower_triangle',
           'mirrored', 'missing_attribute', 'most_of', 'name_of', 'number_ascending',
           'number_names', 'open_file', 'packer_of', 'program_words', 'put_column', 'read_column',
           'read_lines', 'read_list', 'read_market_lines', 'read_row', 'read_text',
           'refuse_repeated', 'shown', 'start_of_line', 'stop_estimate', 'unit_of_read',
           'vector_of', 'without_frames', 'write_text']
