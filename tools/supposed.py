"""What the statements of contracts leave to be any value, and why no body can choose it.

A statement as `(x : T) × ..` says that there is some value, and so do a field of a record and an
argument of a case that the case's own statement doesn't name. A value that nothing fixes is one
that any body may invent: such a statement promises less than it seems to. `tools/definitions
--check` finds each, and refuses one that isn't here. It leaves out a value that an equation beside
it fixes, as `insn_at insns slot ≡ Some insn` fixes `insn`.
"""
from typing import Dict, Tuple

# By the module or the file, and by the definition (of a file: `a clause`): the values' names, and
# the reason.
SUPPOSED: Dict[Tuple[str, str], Tuple[str, str]] = {
    ('bpf_flat.specs.Flat', 'HasRun'):
        ('taken last', 'a step leads to one state, and a run ends at the first exit'),
    ('bpf_flat.specs.Flat', 'Leads'): ('between', 'a step leads to one state'),
    ('bpf_flat.specs.Flat', 'RunsOn'):
        ('so_far first others left stack',
         'the runs fix the numbers; no call of an operator reads what another left'),
    ('bpf_insn.specs.Broken', 'IsBrokenAtFront'): ('slot', 'eight bytes are those of one slot'),
    ('bpf_insn.specs.Broken', 'SlotBreaks'): ('o', 'an opcode has a number of its own'),
    ('bpf_insn.specs.Code', 'ExplainsRefusal'): ('is', 'code spells one program'),
    ('bpf_insn.specs.Code', 'IsBroken'):
        ('before rest', 'code begins with one program of so many slots'),
    ('bpf_insn.specs.Run', 'IsStuck'):
        ('steps frame', 'a step leads to one state, so a run is stuck in one'),
    ('bpf_insn.specs.Run', 'Leads'): ('between', 'a step leads to one state'),
    ('bpf_lanes.specs.Lanes', 'LanesHaveRun'): ('costs', 'the run of each lane fixes its cost'),
    ('bpf_text.specs.Text', 'Breaks'): ('i', 'a line stands for one instruction'),
    ('bpf_text.specs.Text', 'ExplainsRefusal'): ('is', 'a text stands for one program'),
    ('bpf_text.specs.Text', 'IsFaultyLine'):
        ('before line behind insns',
         'the number of the line cuts the text, and lines have one meaning'),
    ('bpf_verify.specs.Accepted', 'IsSound'): ('value cost', 'the machine fixes them'),
    ('bpf_verify.specs.Paths', 'IsKnown'): ('before', 'the path fixes it'),
    ('bpf_verify.specs.Paths', 'IsWay'): ('path', 'a fault is one that some path shows'),
    ('bpf_verify.specs.Paths', 'ShowsOne'): ('way', 'a fault is one that some path shows'),
    ('bpf_verify.specs.Paths', 'ShowsTwo'):
        ('reg left right', 'a fault is one that some two paths show'),
    ('bpf_verify.specs.Paths', 'Tells'): ('w', 'a type is told of what the ways to a slot show'),
    ('bpf_verify.specs.Paths', 'TellsTag'): ('t u', 'mixed means that some two ways differ'),
    ('job_plan.specs.Chunks', 'IsChunkAt'): ('price', 'the list of chunks has it'),
    ('job_plan.specs.Copies', 'AreCopies'):
        ('job', 'that some job pays for a copy is what is claimed'),
    ('job_plan.specs.Form', 'IsMapped'): ('pairs', 'the two forms fix them'),
    ('job_runner.specs.Whole', 'IsRaced'):
        ('workers draws',
         'no value that is answered holds the race: the rows can be divided so, no more is said'),
    ('job_runner.specs.Worked', 'StandsAfter'): ('c s', 'the state of the worker has them'),
    ('matrix_market.specs.Market', 'IsTextOf'): ('first others', 'they are the lines of the text'),
    ('matrix_market.specs.Refusal', 'HasSizes'):
        ('first others behind', 'they are the lines of the text, up to its sizes and behind'),
    ('matrix_market.specs.Refusal', 'IsText'): ('g', 'a text stands for one matrix'),
    ('metered_session.specs.Limits', 'Meters'):
        ('calls', 'the call of the session and its reply fix them'),
    ('metered_session.specs.Limits', 'StandsFor'):
        ('totals', 'they are what the call of the pass replied'),
    ('race_board.specs.Chunks', 'StandsOnce'): ('nth steps', 'the list of chunks has them'),
    ('race_board.specs.Race', 'RanOneRace'):
        ('lost', 'seats that were lost with a refused start are held by nobody'),
    ('session.specs.Talk', 'IsAnswered'):
        ('read text dealings held',
         'the devices fix what is read and written where their bytes are known; which calls of the '
         'budget stand behind the replies is said of the whole session'),
    ('session.specs.Talk', 'Outcome'):
        ('end', 'after a write that failed nothing tells whether the session had ended'),
    ('session.specs.Talk', 'Said'):
        ('read ended dealings text written held',
         'the devices fix what is read and written where their bytes are known, and the budget the '
         'dealings; by these the talk fixes the text and what is held'),
    ('session.specs.Talk', 'Talk'):
        ('t c rest', 'what stands next fixes the command, and its turn what is held then'),
    ('session_laws.specs.Laws', 'TellsWant'): ('spent', 'the reply tells it'),
    ('spmat.specs.inner.Reporting', 'IsReportedFailed'):
        ('front', 'a write that failed tells nothing of how much it wrote'),
    ('spmat.specs.inner.Running', 'Spoke'):
        ('first last',
         'the call opens the purse, with the allowance, and the calls of the session lead on'),
    ('spmat_lib.specs.Answer', 'IsAnswer'):
        ('outcome', 'a text stands for one matrix, and the numbers of a refusal for one refusal'),
    ('spmat_lib.specs.Calls', 'AreCalled'):
        ('outcome', 'code spells one program, which is accepted or has one fault'),
    ('spmat_lib.specs.Calls', 'IsRefused'):
        ('insns', 'code spells one program'),
    ('spmat_lib.specs.Verdict', 'IsAssembly'):
        ('outcome', 'a text denotes one program, or has one fault'),
    ('step_purse.specs.Histories', 'Begins'):
        ('rest', 'it is what one history has beyond another'),
    ('step_purse.specs.Histories', 'Leads'):
        ('next', 'the call before fixes it, up to what others did meanwhile'),
    ('step_purse.specs.Histories', 'Makes'):
        ('between', 'they are the calls of others meanwhile, of which a pass knows nothing'),
    ('wire.specs.Fetching', 'Fetched'):
        ('got', 'the source fixes it where its bytes are known'),
    ('wire.specs.Fetching', 'IsBody'):
        ('body', 'it is the first bytes of what was fetched, so many'),
    ('wire.specs.Prefixes', 'IsPrefixOf'): ('rest', 'the two texts fix it'),
    ('wire.specs.Sending', 'Sent'): ('written', 'the sink fixes it where its bytes are known'),
    ('wire/src/device.rt', 'a clause'):
        ('front', 'a write that failed tells nothing of how much it wrote'),
    ('workspace/src/turn.rt', 'a clause'):
        ('dealings', 'they lead from the budget that was given to the one that is left'),
    ('workspace.specs.Binds', 'BindsAssembly'): ('program', 'a text stands for one program'),
    ('workspace.specs.Turn', 'BreaksOff'): ('why spent', 'the reply names both'),
    ('workspace.specs.Turn', 'BudgetTurn'): ('totals', 'the reply tells them'),
    ('workspace.specs.Turn', 'Gives'): ('results', 'the jobs fix each result'),
    ('workspace.specs.Turn', 'Submits'): ('left', 'the reply tells it'),
    ('workspace.specs.Turn', 'TakesAssembly'):
        ('program fault', 'a text stands for one program, or has one fault'),
    ('workspace.specs.Turn', 'TakesMatrix'):
        ('g rule line', 'a text stands for one matrix, or has one fault'),
    ('workspace.specs.Turn', 'TakesOperator'):
        ('program fault', 'code spells one program, or has one fault'),
    ('workspace.specs.Turn', 'TakesProgram'):
        ('operator fault', 'the program fixes both, but for a table that nothing tells'),
}
