"""Logisim's image, loaded into a RAM by Logisim, which runs without a screen. The circuit of a case
counts through the addresses and prints each with its word. The environment variable
LOGISIM_CLASS_PATH names Logisim's classes."""

import os

from common import Case, call, image_words, make_image, make_job

FILES = 16

# Logisim's words have 1 to 32 bits.
WIDTHS = [8, 16, 32, 4, 5, 12, 1, 3, 7, 9, 31]

# A clock drives a counter, whose carry stops the run. The counter's inverse is the address, so that
# the last word comes first: Logisim prints the first word that is shown as it was before the image
# was loaded, and the last word is none of the image's. Ports at the same place are connected.
CIRCUIT = """<?xml version="1.0" encoding="UTF-8"?>
<project source="2.7.1" version="1.0">
<lib desc="#Wiring" name="0"/>
<lib desc="#Gates" name="1"/>
<lib desc="#Memory" name="2"/>
<main name="main"/>
<circuit name="main">
<comp lib="0" loc="(180,220)" name="Clock"/>
<comp lib="2" loc="(200,200)" name="Counter">
<a name="width" val="{places}"/><a name="max" val="{last:#x}"/>
</comp>
<comp lib="0" loc="(200,210)" name="Pin">
<a name="output" val="true"/><a name="label" val="halt"/>
</comp>
<comp lib="1" loc="(230,200)" name="NOT Gate"><a name="width" val="{places}"/></comp>
<comp lib="0" loc="(230,200)" name="Pin">
<a name="output" val="true"/><a name="width" val="{places}"/><a name="label" val="address"/>
</comp>
<comp lib="2" loc="(370,200)" name="RAM">
<a name="addrWidth" val="{places}"/><a name="dataWidth" val="{width}"/><a name="bus" val="asynch"/>
</comp>
<comp lib="0" loc="(370,200)" name="Pin">
<a name="output" val="true"/><a name="width" val="{width}"/><a name="label" val="word"/>
</comp>
</circuit>
</project>
"""


def make_case(rng, number):
    """An image of no bits, of less than a word, and of whole words and not."""
    width = WIDTHS[number % len(WIDTHS)]
    words = rng.randrange(1, rng.choice([20, 200, 1000]))
    bits = [0, rng.randrange(1, width + 1)][number] if number < 2 else words * width
    if number % 2:
        bits -= rng.randrange(min(bits, width))
    image = make_image(rng, bits)
    arguments = ["logisim", str(width)]
    return Case(arguments, make_job(image, bits), image_words(image, bits, width), width)


def words(table):
    """The words by their addresses, of a table that Logisim prints: both in binary, with spaces."""
    rows = [line.split("\t") for line in table.decode().replace(" ", "").splitlines()]
    return {int(address, 2): int(word, 2) for address, word in rows}


def logisim(path, case):
    """The image's words, and any other that is not zero: a RAM starts with zeros."""
    # One word more than the image has. Logisim's addresses have at least two bits.
    places = max(len(case.expected).bit_length(), 2)
    last = (1 << places) - 1
    circuit = path + ".circ"
    with open(circuit, "w", encoding="ascii") as file:
        file.write(CIRCUIT.format(places=places, last=last, width=case.width))
    folder = os.path.dirname(path)
    java = ["java", "-Djava.awt.headless=true", "-XX:TieredStopAtLevel=1"]
    java += [f"-Djava.util.prefs.{root}Root={folder}" for root in ("user", "system")]
    main = ["-cp", os.environ["LOGISIM_CLASS_PATH"], "com.cburch.logisim.Main"]
    # The runtime says to stderr that it made a folder for preferences.
    table = call(*java, *main, circuit, "-tty", "table", "-load", path, stderr_fails=False)
    found = words(table)
    if len(found) != last + 1:
        raise ValueError(f"{len(found)} words of {last + 1}")
    return {at: word for at, word in found.items() if word or at in case.expected}


READERS = {"logisim": logisim}
