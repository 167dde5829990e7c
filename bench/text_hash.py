"""The hash of a text under a seed of 128 bits, written from the definitions in `crates/lasso_parts/specs/TextHash.antt` alone. Run as a
program, it prints the table of vectors that the tests have: for each text and each seed the hash."""

MASK = 2**64 - 1
PI = (0x243F6A8885A308D3, 0x13198A2E03707344)
SEEDS = [(0, 0), (0x0706050403020100, 0x0F0E0D0C0B0A0908), (MASK, 1)]
LENGTHS = [0, 1, 2, 3, 4, 7, 8, 9, 15, 16, 17, 31, 32, 33, 48, 63, 64, 65, 80]


def folded(a, b):
    """The two halves of the product, joined by xor."""
    return (a * b & MASK) ^ (a * b >> 64)


def number(text, at, count):
    """So many bytes from the index on as one number, the lowest first."""
    return int.from_bytes(text[at : at + count], "little")


def ends(text):
    """The head and the tail of a text of at most sixteen bytes."""
    size = len(text)
    if size >= 8:
        return number(text, 0, 8), number(text, size - 8, 8)
    if size >= 4:
        return number(text, 0, 4), number(text, size - 4, 4)
    if size >= 1:
        return text[0] + 256 * text[size // 2] + 65536 * text[size - 1], 0
    return 0, 0


def text_hash(seed, text):
    """The hash of the bytes under the seed, a pair of numbers of 64 bits."""
    state, factor = seed[0] ^ PI[0], seed[1] ^ PI[1]
    turn = len(text) % 64
    last = (factor << turn | factor >> (64 - turn)) & MASK
    if len(text) <= 16:
        head, tail = ends(text)
        return folded(head ^ state, tail ^ last)
    for at in range(0, (len(text) - 1) // 16 * 16, 16):
        state = folded(number(text, at, 8) ^ state, number(text, at + 8, 8) ^ factor)
    return folded(number(text, len(text) - 16, 8) ^ state, number(text, len(text) - 8, 8) ^ last)


def sample(size):
    """A text of so many letters."""
    return bytes(97 + (index * index // 3 + 7 * index + size) % 26 for index in range(size))


if __name__ == "__main__":
    for size in LENGTHS:
        hashes = " ".join(f"{text_hash(seed, sample(size)):016x}" for seed in SEEDS)
        print(f'("{sample(size).decode()}", "{hashes}"),')
