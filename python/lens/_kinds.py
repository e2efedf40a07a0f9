"""The kinds of records of a sheet: the byte of a kind to its name and how many bytes a record has. Made by bin/make-tables."""

KINDS = {
    # make-tables: kinds
    0x01: ('the header', 3),
    0x20: ('a section', 2),
    0x10: ('a variable', 2),
    0x11: ('the constant False', 1),
    0x12: ('the constant True', 1),
    0x13: ('the constant empty list', 1),
    0x14: ('a constant number', 3),
    0x15: ('a front', 3),
    0x16: ('a pair', 3),
    0x17: ('a list case', 8),
    0x18: ('a truth case', 6),
    0x19: ('a split', 3),
    0x1A: ('a call', 4),
    0x1B: ('an add', 4),
    0x1C: ('an each', 5),
    0x1D: ('a constant number over 65,535', 5),
    # make-tables: end
}
