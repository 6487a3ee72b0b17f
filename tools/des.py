"""The DES block cipher (FIPS 46-3), which VNC authentication asks for. Nobody should keep a secret by it."""

# The tables of the standard: which bit of the input, counted from 1 at the left, each bit of the output is.
INITIAL = [
    58, 50, 42, 34, 26, 18, 10, 2, 60, 52, 44, 36, 28, 20, 12, 4,
    62, 54, 46, 38, 30, 22, 14, 6, 64, 56, 48, 40, 32, 24, 16, 8,
    57, 49, 41, 33, 25, 17, 9, 1, 59, 51, 43, 35, 27, 19, 11, 3,
    61, 53, 45, 37, 29, 21, 13, 5, 63, 55, 47, 39, 31, 23, 15, 7,
]
MIXED = [
    16, 7, 20, 21, 29, 12, 28, 17, 1, 15, 23, 26, 5, 18, 31, 10,
    2, 8, 24, 14, 32, 27, 3, 9, 19, 13, 30, 6, 22, 11, 4, 25,
]
KEY = [
    57, 49, 41, 33, 25, 17, 9, 1, 58, 50, 42, 34, 26, 18,
    10, 2, 59, 51, 43, 35, 27, 19, 11, 3, 60, 52, 44, 36,
    63, 55, 47, 39, 31, 23, 15, 7, 62, 54, 46, 38, 30, 22,
    14, 6, 61, 53, 45, 37, 29, 21, 13, 5, 28, 20, 12, 4,
]
ROUND_KEY = [
    14, 17, 11, 24, 1, 5, 3, 28, 15, 6, 21, 10,
    23, 19, 12, 4, 26, 8, 16, 7, 27, 20, 13, 2,
    41, 52, 31, 37, 47, 55, 30, 40, 51, 45, 33, 48,
    44, 49, 39, 56, 34, 53, 46, 42, 50, 36, 29, 32,
]
# The eight substitutions, in four rows of sixteen each, as hexadecimal digits.
BOXES = [
    "e4d12fb83a6c59070f74e2d1a6cb953841e8d62bfc973a50fc8249175b3ea06d",
    "f18e6b34972dc05a3d47f28ec01a69b50e7ba4d158c6932fd8a13f42b67c05e9",
    "a09e63f51dc7b428d709346a285ecbf1d6498f30b12c5ae71ad069874fe3b52c",
    "7de3069a1285bc4fd8b56f03472c1ae9a690cb7df13e52843f06a1d8945bc72e",
    "2c417ab6853fd0e9eb2c47d150fa3986421bad78f9c5630eb8c71e2d6f09a453",
    "c1af92680d34e75baf427c9561de0b389ef528c3704a1db6432c95fabe17608d",
    "4b2ef08d3c975a61d0b7491ae35c2f8614bdc37eaf6805926bd814a7950fe23c",
    "d2846fb1a93e50c71fd8a374c56b0e927b419ce206adf35821e74a8dfc90356b",
]
SHIFTS = [1, 1, 2, 2, 2, 2, 2, 2, 1, 2, 2, 2, 2, 2, 2, 1]


def chosen(value, wide, table):
    """The bits of a value of `wide` bits that a table names."""
    found = 0
    for place in table:
        found = found << 1 | value >> (wide - place) & 1
    return found


def round_keys(key):
    """The sixteen keys of the rounds, of the eight bytes of a key."""
    halves, keys = chosen(int.from_bytes(key, "big"), 64, KEY), []
    left, right = halves >> 28, halves & 0xFFFFFFF
    for shift in SHIFTS:
        left, right = ((half << shift | half >> (28 - shift)) & 0xFFFFFFF for half in (left, right))
        keys.append(chosen(left << 28 | right, 56, ROUND_KEY))
    return keys


def mixed(half, key):
    """What a round makes of half a block."""
    # Each group of four bits with the neighbours on both sides, the last bit before the first one.
    ring, found = (half & 1) << 33 | half << 1 | half >> 31, 0
    for box, digits in enumerate(BOXES):
        six = (ring >> (28 - 4 * box) ^ key >> (42 - 6 * box)) & 63
        row, column = six >> 4 & 2 | six & 1, six >> 1 & 15
        found = found << 4 | int(digits[16 * row + column], 16)
    return chosen(found, 32, MIXED)


def worked(block, keys):
    value = chosen(int.from_bytes(block, "big"), 64, INITIAL)
    left, right = value >> 32, value & 0xFFFFFFFF
    for key in keys:
        left, right = right, left ^ mixed(right, key)
    value = right << 32 | left
    final = [INITIAL.index(place) + 1 for place in range(1, 65)]
    return chosen(value, 64, final).to_bytes(8, "big")


def encrypt(key, block):
    """Eight bytes by a key of eight."""
    return worked(block, round_keys(key))


def decrypt(key, block):
    """The block that `encrypt` made these eight bytes of."""
    return worked(block, round_keys(key)[::-1])
