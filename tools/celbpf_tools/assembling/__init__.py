"""A friendlier text of programs than `celbpf asm` takes, as that text and as an image with constants.

    forms      what each instruction's operands are
    scanning   the pieces of a line, with their columns
    items      a line's label, instruction or bytes, and its faults
    constants  the bytes of constants, with their names
    programs   a whole text: its lines, names and jumps
    images     the image of a program
"""
