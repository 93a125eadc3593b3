"""A dozen shapes that take long to decide or to read, and what each costs a gatekeeper.

    loops       turns of loops whose calls of helpers read most
    shapes      the dozen: such loops, and documents that take long to read
    known       reviews from a seed whose reads are calculated
    places      the reviews of example policies with parts of a shape
    watched     a gatekeeper that is given many lines, with the processor time and the memory of each
"""
