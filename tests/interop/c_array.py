"""The array of C, compiled by gcc without a warning: the program writes the image's bytes."""

import os

from common import Case, call, image_bytes, make_image, make_job

FILES = 48

DUMP = os.path.join(os.path.dirname(os.path.abspath(__file__)), "dump.c")
RADIXES = ["10", "16"]
# Sizes in bytes, around the ends of lines and where an address has a digit more.
SIZES = [1, 2, 15, 16, 17, 32, 33, 255, 256, 257, 4096, 4097, 65536, 65537]


def make_case(rng, number):
    place = number // 2
    size = SIZES[place] if place < len(SIZES) else 1 + rng.randrange(rng.choice([40, 600, 9000]))
    bits = 8 * size - rng.choice([0, rng.randrange(8)])
    image = make_image(rng, bits)
    arguments = ["c_array", RADIXES[number % 2]]
    return Case(arguments, make_job(image, bits), image_bytes(image, bits))


def gcc(path, _):
    program = path + ".dump"
    warnings = ["-Wall", "-Wextra", "-Werror", "-pedantic"]
    call("gcc", "-std=c11", *warnings, f'-DTEXT="{path}"', DUMP, "-o", program)
    return dict(enumerate(call(program)))


READERS = {"gcc": gcc}
