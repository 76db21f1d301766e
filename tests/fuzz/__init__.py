"""What tests/fuzz/run is made of.

    operators.py  random operators, most of which are accepted
    uploads.py    operators as assembly text and as code in hexadecimal, rightful and spoilt
    matrices.py   random matrices and their texts, rightful and spoilt
    texts.py      blanks, numbers, ends of lines, and altered bytes
    scripts.py    random sessions of these
    counts.py     what the sessions met, and what they have to meet
    programs.py   the two servers that are compared: the reference in this process, and a program
    plants.py     faults that are planted into a copy of the reference, which have to be found
"""
