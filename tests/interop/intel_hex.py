"""Intel HEX, read by srec_cat, objcopy and Python's intelhex: each byte of the image that stands in
a block is at its address, and nothing elsewhere."""

from common import Case, byte_at, call, make_image, make_job, s_records

FILES = 300

ABSENT = 4294967295
# The addresses of a file, in bytes.
ADDRESSES = 65536
# Sizes of blocks in bytes, around the ends of records.
SIZES = [1, 2, 3, 31, 32, 33, 63, 64, 65, 95, 96, 97, 255, 256, 257, 1000]
GAPS = [0, 0, 0, 0, 1, 2, 3, 31, 32, 33, 100, 256, 257, 1000, 5000]


def make_spans(rng):
    """Spans at whole bytes that do not overlap, in a random order."""
    spans = []
    at = rng.choice([0, 0, rng.randrange(300), rng.randrange(ADDRESSES)])
    for _ in range(rng.randrange(20)):
        size = rng.choice(SIZES)
        if at + size > ADDRESSES:
            break
        cut = rng.randrange(size)
        less = rng.choice([0, rng.randrange(8)])
        spans += [(8 * at, 8 * cut), (8 * (at + cut), 8 * (size - cut) - less)]
        at += size + rng.choice(GAPS)
    if rng.randrange(4) == 0:
        spans.append((8 * (ADDRESSES - 40), 8 * 40))
    spans += [(8 * rng.randrange(at + 9), 0) for _ in range(rng.randrange(4))]
    spans += [(ABSENT, rng.randrange(100)) for _ in range(rng.randrange(3))]
    rng.shuffle(spans)
    return spans


def blocks(spans):
    """The offsets and sizes of the blocks, as document 01 makes them of the spans."""
    made = []
    # Python's sort keeps the order of equal offsets.
    for offset, size in sorted((s for s in spans if s[0] != ABSENT), key=lambda s: s[0]):
        if made and made[-1][0] + made[-1][1] == offset:
            made[-1][1] += size
        else:
            made.append([offset, size])
    return [block for block in made if block[1] > 0]


def memory(image, bits, spans):
    """What a reader should find, or None where blocks overlap."""
    found = {}
    for offset, size in blocks(spans):
        for at in range(offset // 8, (offset + size + 7) // 8):
            if at in found:
                return None
            found[at] = byte_at(image, bits, at)
    return found


def make_case(rng, _):
    size = rng.randrange(rng.choice([1, 5, 40, 600, 9000, 9000, 9000]))
    bits = max(0, 8 * size - rng.randrange(8))
    image = make_image(rng, bits)
    expected = None
    while expected is None:
        spans = make_spans(rng)
        expected = memory(image, bits, spans)
    return Case(["intelhex"], make_job(image, bits, spans), expected)


# What the two programs say of a file that has no data; they take it for an error.
NOTHING = ["file contains no data", "has no sections"]


def translated(command, output=None):
    """The bytes of the S-records that a program prints or writes; none where a file has no data."""
    try:
        text = call(*command)
    except ValueError as error:
        if any(words in str(error) for words in NOTHING):
            return {}
        raise
    if output is not None:
        with open(output, "rb") as file:
            text = file.read()
    return s_records(text)


def srec_cat(path, _):
    return translated(["srec_cat", path, "-Intel", "-Output", "-", "-Motorola"])


def objcopy(path, _):
    output = path + ".srec"
    return translated(["objcopy", "-I", "ihex", "-O", "srec", path, output], output)


def intelhex(path, _):
    from intelhex import IntelHex

    return IntelHex(path).todict()


READERS = {"srec_cat": srec_cat, "objcopy": objcopy, "intelhex": intelhex}
