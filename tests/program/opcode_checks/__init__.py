"""What tests/program/opcodes asks of the built program, in a module for each topic:

    exchanges.py    commands with the replies that they must have, and how a session of them is run
    programs.py     code from slots, and the commands that upload it
    lanes.py        operands laid out as matrices, so that calls are made alone and up to 64 at once
    conformance.py  the vectors of rfc9669.txt, which were worked out from the RFC alone
    values.py       operations, conditions and the stack, with values that are written down
    refusals.py     code that is refused, with the rule and the slot that are written down
    faulty_texts.py assembly text that is refused, with the rule and the line that are written down
    spellings.py    each opcode with the least and the greatest of its fields, as code and as text
    operations.py   each operation and jump on all pairs of words at the edges
    jumps.py        jumps that part calls which are made together, and those over one move
    stacks.py       loads and stores of each size at each place of the stack
    folds.py        folds of short and long rows
    sizes.py        code and text as long as they may be
 What is written down stands in its module. The other values are those of the reference
implementation's machine (reference).
"""
