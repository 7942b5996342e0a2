"""The files of Verilog's $readmemb and $readmemh, read by iverilog into a memory of as many words
as the file has lines. A last line of fewer bits is a word whose other bits, the high ones, are
zero."""

import os

from common import Case, call, image_words, make_image, make_job

FILES = 168

TESTBENCH = os.path.join(os.path.dirname(os.path.abspath(__file__)), "testbench.v")
FORMATS = ["readmemb", "readmemh"]
WIDTHS = [8, 16, 32, 5, 12, 1, 2, 3, 4, 7, 9, 13, 31, 33, 63, 64, 65, 100, 1000, 4095, 4096]


def make_case(rng, number):
    """Each width with no bits, less than a line, lines that are whole, and any number of bits."""
    width = WIDTHS[number // 2 % len(WIDTHS)]
    words = rng.choice([1, 2, 3, rng.randrange(1, 300)])
    lengths = [0, rng.randrange(1, width + 1), words * width, rng.randrange(words * width + 1)]
    bits = lengths[number // 2 // len(WIDTHS) % len(lengths)]
    image = make_image(rng, bits)
    arguments = [FORMATS[number % 2], str(width)]
    return Case(arguments, make_job(image, bits), image_words(image, bits, width), width)


def iverilog(path, case):
    """The words that were set; any other warning than one of an empty file is an error."""
    program = path + ".vvp"
    # A memory has at least one word.
    depth = max(len(case.expected), 1)
    sizes = [f"-Ptestbench.WIDTH={case.width}", f"-Ptestbench.DEPTH={depth}"]
    call("iverilog", "-Wall", *sizes, "-o", program, TESTBENCH)
    said = call("vvp", "-n", program, f"+{case.arguments[0]}={path}").decode().split("\n")[:-1]
    words = [line for line in said if not line.startswith("WARNING")]
    warnings = [line for line in said if line.startswith("WARNING")]
    if case.expected or not all("Not enough words" in line for line in warnings):
        for line in warnings:
            raise ValueError(line)
    if len(words) != depth:
        raise ValueError(f"{len(words)} words of {depth}")
    return {at: int(word, 2) for at, word in enumerate(words) if word != "x" * case.width}


READERS = {"iverilog": iverilog}
