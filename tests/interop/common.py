"""What the formats share: cases, images, the export, calls of programs and S-records."""

import struct
import subprocess
from typing import NamedTuple

# Seconds after which a program has failed.
TIMEOUT = 60


class Case(NamedTuple):
    """An export: the arguments and the standard input of export.c, and what a reader should find,
    numbers by their addresses. `width` is the bits of such a number."""

    arguments: list
    job: bytes
    expected: dict
    width: int = 8


def make_image(rng, bits):
    """The bytes of an image; what stands past the last bit is random."""
    return bytes(rng.choices(range(256), k=(bits + 7) // 8))


def make_job(image, bits, spans=(), unit=8):
    """The image and its spans as export.c reads them."""
    table = b"".join(struct.pack("<2I", *span) for span in spans)
    return struct.pack("<5I", bits, 20 + len(table), len(spans), 20, unit) + table + image


def byte_at(image, bits, at):
    """A byte of an image, whose bits past the last one are zero."""
    used = min(max(bits - 8 * at, 0), 8)
    return image[at] & (0xFF00 >> used) if used else 0


def image_bytes(image, bits):
    """The bytes of an image by their addresses."""
    return {at: byte_at(image, bits, at) for at in range((bits + 7) // 8)}


def image_words(image, bits, width):
    """The words of an image by their addresses: `width` bits each, the first of them the highest.
    The last word may have fewer bits; they are its lowest."""
    digits = "".join(f"{byte:08b}" for byte in image)[:bits]
    return {at // width: int(digits[at : at + width], 2) for at in range(0, bits, width)}


def call(*command, stderr_fails=True, **more):
    """What a program prints. Where `stderr_fails`, whatever it says to stderr is an error."""
    pipe = subprocess.PIPE
    done = subprocess.run(command, stdout=pipe, stderr=pipe, timeout=TIMEOUT, **more)
    if done.returncode != 0 or (stderr_fails and done.stderr):
        said = done.stderr.decode(errors="replace").split("\n")[0]
        raise ValueError(said or f"exit {done.returncode}")
    return done.stdout


def s_records(text):
    """The bytes of S-records, to which srec_cat and objcopy translate."""
    found = {}
    for line in text.decode().split():
        width = {"S1": 2, "S2": 3, "S3": 4}.get(line[:2])
        if width is not None:
            data = bytes.fromhex(line[4:-2])
            put(found, int.from_bytes(data[:width], "big"), data[width:])
    return found


def put(found, at, data):
    for place, byte in enumerate(data, at):
        if place in found:
            raise ValueError(f"two bytes at {place:#x}")
        found[place] = byte
