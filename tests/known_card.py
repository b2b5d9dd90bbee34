"""Words of slot sets, typed by hand: the first, the last and two others of the 33 widths, and some over 32; sets of one slot, in order, round the ring, and with
slots over 31, which name no slot of their own."""

WIDTHS = {
    0: 0,
    1: 1,
    2: 3,
    3: 7,
    8: 0xFF,
    16: 0xFFFF,
    31: 0x7FFFFFFF,
    32: 0xFFFFFFFF,
    33: 0xFFFFFFFF,
    18446744073709551615: 0xFFFFFFFF,
}

SETS = {
    (0, 0): 1,
    (5, 5): 32,
    (31, 31): 0x80000000,
    (0, 31): 0xFFFFFFFF,
    (8, 15): 0xFF00,
    (30, 2): 0xC0000007,
    (31, 0): 0x80000001,
    (6, 5): 0xFFFFFFFF,
    (20, 3): 0xFFF0000F,
    (28, 39): 0xF0000000,
    (32, 39): 0,
    (35, 3): 0xF,
    (39, 35): 0xFFFFFFFF,
    (5, 255): 0xFFFFFFE0,
    (255, 5): 0x3F,
}
