"""The memory initialization file, read by srec_cat: each byte of the image is at its address, and
nothing elsewhere."""

from common import Case, call, image_bytes, make_image, make_job, s_records

FILES = 100

# Sizes in bytes, around those where an address has a digit more.
SIZES = [1, 2, 15, 16, 17, 255, 256, 257, 4095, 4096, 4097, 65535, 65536, 65537]


def make_case(rng, number):
    size = SIZES[number] if number < len(SIZES) else 1 + rng.randrange(rng.choice([40, 600, 9000]))
    bits = 8 * size - rng.choice([0, rng.randrange(8)])
    image = make_image(rng, bits)
    return Case(["mif"], make_job(image, bits), image_bytes(image, bits))


def srec_cat(path, _):
    program = "srec_cat", path, "-Memory_Initialization_File", "-Output", "-", "-Motorola"
    return s_records(call(*program))


READERS = {"srec_cat": srec_cat}
