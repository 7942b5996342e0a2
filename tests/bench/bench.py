"""Jobs for the bench program, and what document 01 says that it prints for them.

    bench.py PROGRAM SEED
"""
import random
import struct
import subprocess
import sys

ROOM = 65536
LONGEST = 65536
MAX_BITS = 16777216
ABSENT = 4294967295


def bit(image, bits, i):
    """Bit i of an image, zero from its end on."""
    return image[i // 8] >> (7 - i % 8) & 1 if i < bits else 0


def byte(image, bits, i):
    value = 0
    for k in range(8):
        value = value * 2 + bit(image, bits, i + k)
    return value


def blocks(spans):
    """Document 01, module 7."""
    found, running = [], None
    for offset, size in sorted((s for s in spans if s[0] != ABSENT), key=lambda s: s[0]):
        if running and offset == sum(running):
            running[1] += size
            continue
        found.append(running)
        running = [offset, size]
    return [b for b in found + [running] if b and b[1]]


def export(image, bits, spans, unit):
    """The text, or a refusal's number."""
    if bits > MAX_BITS or bits > 8 * len(image):
        return 1
    if not 1 <= unit <= 64:
        return 2
    if len(spans) > 4096 or any(o != ABSENT and o + s > MAX_BITS for o, s in spans):
        return 3
    records = []
    for offset, size in blocks(spans):
        count = (size + 7) // 8
        for first in range(0, count, 32):
            records.append((offset + 8 * first, min(32, count - first)))
    if any(start // unit > 65535 for start, _ in records):
        return 5
    if sum(12 + 2 * count for _, count in records) + 11 > ROOM:
        return 8
    lines = []
    for start, count in records:
        data = [byte(image, bits, start + 8 * k) for k in range(count)]
        head = [count, start // unit // 256, start // unit % 256, 0]
        lines.append(":" + bytes(head + data + [-sum(head + data) % 256]).hex().upper() + "\n")
    return "".join(lines) + ":00000001FF"


def expected(job):
    if len(job) > LONGEST or len(job) < 20:
        return b"refused 9\n"
    bits, image, count, table, unit = struct.unpack_from("<5I", job)
    if image + (bits + 7) // 8 > len(job) or table + 8 * count > len(job):
        return b"refused 9\n"
    spans = list(struct.iter_unpack("<2I", job[table : table + 8 * count]))
    answer = export(job[image : image + (bits + 7) // 8], bits, spans, unit)
    return answer.encode() if isinstance(answer, str) else b"refused %d\n" % answer


def made(bits, image, spans, unit, numbers={}):
    """A job with the image and then the table behind its numbers, some of which can be given."""
    rows = b"".join(struct.pack("<2I", *s) for s in spans)
    n = {"bits": bits, "image": 20, "count": len(spans), "table": 20 + len(image), "unit": unit} | numbers
    return struct.pack("<5I", n["bits"], n["image"], n["count"], n["table"], n["unit"]) + image + rows


def edges():
    """The jobs that are worth a name."""
    one = made(8, b"\x12", [(0, 8)], 8)
    yield one
    yield from (b"", one[:19], made(0, b"", [], 8), one[:20], one[:28])
    for length in (LONGEST, LONGEST + 1, LONGEST + 1000):
        yield one + bytes(length - len(one))
    yield from (made(8, b"\x12", [(0, 8)], 8, {name: value}) for name in ("bits", "image", "count", "table", "unit") for value in (ABSENT, ABSENT - 7, 1 << 31, 536870912))
    yield from (made(8, b"\x12", spans, 8) for spans in ([(ABSENT, 8)], [(ABSENT, ABSENT)], [(ABSENT - 1, 8)], [(8, ABSENT)], [(ABSENT - 1, ABSENT)], [(MAX_BITS, 0)], [(MAX_BITS, 1)], [(MAX_BITS - 8, 8)]))
    yield from (made(8, b"\x12", [(0, 8)], unit) for unit in (0, 1, 64, 65))
    yield from (made(0, b"", [(k % 7 * 8, k % 3)] * k, 8) for k in (4095, 4096, 4097, 8000))
    yield made(0, b"", [(0, 8)] * 4096, 8)
    yield made(32, one[:4], [(0, 32)], 8, {"image": 0})  # the image is the job's own first bytes
    yield made(0, b"", [(0, 64)], 8, {"table": 12})  # the table shares the numbers' bytes
    yield made(8, b"\x12", [(0, 8)], 8, {"bits": 8 * 29, "image": 0, "table": 0, "count": 3})
    yield made(0, b"", [], 8, {"image": 20, "table": 20})
    yield made(0, b"", [], 8, {"image": 21})
    yield made(0, b"", [], 8, {"table": 21})
    for size in (27583, 27584, 27585, 60000):  # a text of 65,523 bytes, and one of 65,537
        yield made(0, b"", [(0, 8 * size)], 64)
    for size in (7, 8, 9):  # 65,533, 65,535 and 65,537 bytes
        yield made(0, b"", [(0, 8 * 27552), (400000, 80), (500000, 64), (600000, 8 * size)], 64)
    yield made(8 * 60000, bytes(range(250)) * 240, [(0, 8 * 20000)], 8)


def random_job(rng):
    data = rng.randbytes(rng.choice((0, 1, 2, 5, 40, 300)))
    bits = max(0, 8 * len(data) - rng.choice((0, 0, 1, 3, 7)))
    sizes = (0, 0, 1, 4, 7, 8, 8, 9, 16, 24, 100, 256, 264)
    spans = []
    for _ in range(rng.choice((0, 1, 2, 3, 5, 9, 30))):
        offset = rng.choice((ABSENT, 8 * rng.randrange(6), rng.randrange(64), rng.randrange(3000), 524288 - 8 * rng.randrange(3)))
        if spans and rng.random() < 0.5 and spans[-1][0] != ABSENT:
            offset = sum(spans[-1])
        spans.append((offset, rng.choice(sizes)))
    rng.random() < 0.5 and rng.shuffle(spans)
    job = made(bits, data, spans, rng.choice((8, 8, 8, 1, 3, 16, 64, rng.randrange(67))))
    if rng.random() < 0.2:
        at = rng.randrange(20)
        job = job[:at] + rng.randbytes(1) + job[at + 1 :]
    return job[: rng.randrange(len(job) + 1)] if rng.random() < 0.1 else job


def main():
    program, seed = sys.argv[1], int(sys.argv[2])
    rng = random.Random(seed)
    jobs = list(edges()) + [random_job(rng) for _ in range(1500)]
    different, answers = 0, {}
    for job in jobs:
        want = expected(job)
        got = subprocess.run([program], input=job, stdout=subprocess.PIPE, check=True).stdout
        answers[want[:9]] = answers.get(want[:9], 0) + 1
        if got != want:
            different += 1
            print(f"bench: {len(job)} bytes {job[:60].hex()}: {got[:60]!r}, not {want[:60]!r}")
    kinds = " ".join(f"{k.decode().split()[-1]}:{n}" for k, n in sorted(answers.items()) if k.startswith(b"refused"))
    print(f"bench: {len(jobs)} jobs, refusals {kinds}, {different} differences")
    return 1 if different else 0


sys.exit(main())
