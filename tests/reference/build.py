"""Packing of work files and of the test script."""
import struct

FILL = 0xAA


def pack(H, N, servers, arrivals, so=24, ao=None, n=None, m=None, length=None,
         hso=None, hao=None, fill=FILL):
    """A work file. so/ao: where the records really are; hso/hao, n, m: what the
    header says when it is to differ; length cuts or extends (with 0xAA)."""
    if ao is None:
        ao = so + 8 * len(servers)
    size = max(24, so + 8 * len(servers), ao + 12 * len(arrivals))
    b = bytearray([fill]) * size
    b[0:24] = struct.pack("<6I", H, N, len(servers) if n is None else n, so if hso is None else hso,
                          len(arrivals) if m is None else m, ao if hao is None else hao)
    for i, (Q, T) in enumerate(servers):
        b[so + 8 * i:so + 8 * i + 8] = struct.pack("<2I", Q, T)
    for k, (moment, s, cost) in enumerate(arrivals):
        b[ao + 12 * k:ao + 12 * k + 12] = struct.pack("<3I", moment, s, cost)
    if length is not None:
        if length < len(b):
            del b[length:]
        b += bytes([FILL]) * (length - len(b))
    return bytes(b)


def to_script(file, T, F):
    """The case's tokens: T F L W w1 .. wW"""
    L = len(file)
    padded = file + bytes([FILL]) * (-L % 4)
    words = list(struct.unpack("<%dI" % (len(padded) // 4), padded))
    while words and words[-1] == 0xAAAAAAAA:
        words.pop()
    assert T <= 64 and F <= 4100 and L <= 65600 and len(words) <= 16400
    return [T, F, L, len(words)] + words


def from_script(text):
    """All cases of a script: list of (file, T, F). Written apart from to_script."""
    numbers = []
    for line in text.split("\n"):
        numbers += [int(x) for x in line.split("#")[0].split()]
    cases = []
    at = 0
    while at < len(numbers):
        T, F, L, W = numbers[at:at + 4]
        at += 4
        b = bytearray()
        for x in numbers[at:at + W]:
            for _ in range(4):
                b.append(x % 256)
                x //= 256
        at += W
        while len(b) < L:
            b.append(170)
        cases.append((bytes(b[:L]), T, F))
    return cases


def expected(run, line, file, T, F):
    """The expected output of one case (run and line from a reference)."""
    trace = [7] * T
    finishes = [9] * F
    verdict, count, records = run(file, trace, finishes)
    assert len(trace) == T and len(finishes) == F and len(records) == 64
    out = [" ".join(str(x) for x in verdict), "segments %d" % count,
           " ".join(["trace"] + [str(x) for x in trace]),
           " ".join(["finishes"] + [str(x) for x in finishes])]
    for i, r in enumerate(records):
        if r != (0, 0, 0, 0, None):
            out.append(line(i, r))
    return out
