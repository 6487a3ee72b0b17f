"""Texts that are changed a little, for the checks that compare the program with an independent model."""

# What is put into a paint script.
PIECES = [
    *(b"cut", b"fill", b"blit", b"copy", b"paint 2\n", b"cut\n", b"\n", b"\r\n", b" ", b"  ", b"\0", b"\xff"),
    *(b"0", b"00", b"-1", b"64", b"4096", b"65535", b"65536", b"ffffff", b"FF"),
]


def mutated(noise, text, pieces):
    """The text with a few bytes taken out, put in or doubled."""
    for _ in range(noise.choice((1, 1, 1, 2, 3))):
        start = noise.randrange(len(text) + 1)
        end = min(len(text), start + noise.choice((0, 0, 1, 1, 2, 7)))
        middle = noise.choice((b"", bytes([noise.randrange(256)]), noise.choice(pieces), text[start:end] * 2))
        text = text[:start] + middle + text[end:]
    return text
