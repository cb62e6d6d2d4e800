"""Runs the built library's hash; the arguments are the shared library and the disassembled archive.

The last line is 'N passed, M failed'.
"""

import ctypes
import pathlib
import random
import re
import sys

import second

HERE = pathlib.Path(__file__).parent
PROGRAM = HERE.parent.parent / "crates" / "hash_vectors"
ONES = 2**64 - 1

passed = 0
failed = 0


def check(name, wrong, count):
    """One test over `count` inputs, of which `wrong` lists those answered wrongly."""
    global passed, failed
    if count and not wrong:
        passed += 1
        print(f"ok: {name}: {count}")
    else:
        failed += 1
        print(f"FAILED: {name}: {len(wrong)} of {count}, first {wrong[:1]}")


def published():
    """The published vectors, and their lines as they stand."""
    lines = [line for line in (HERE / "fnv1a64.txt").read_text().splitlines() if not line.startswith("#")]
    pairs = [line.split(" ") for line in lines]
    return [(bytes.fromhex(data), int(value, 16)) for data, value in pairs], lines


def inputs(chance):
    """Every length from 0 to 300, many times over, in random bytes; and the same in zeros and in ones."""
    for length in range(301):
        yield bytes(length)
        yield b"\xff" * length
        for _ in range(40):
            yield chance.randbytes(length)


def pairs(chance):
    """More than 10,000 salts and identifiers, 0 and all ones among them, and each single bit."""
    edges = [0, 1, 255, 256, 2**32 - 1, 2**32, 2**63, ONES - 1, ONES]
    yield from ((a, b) for a in edges for b in edges)
    yield from ((1 << k, 0) for k in range(64))
    yield from ((0, 1 << k) for k in range(64))
    yield from ((chance.getrandbits(64), chance.choice(edges)) for _ in range(1000))
    yield from ((chance.getrandbits(64), chance.getrandbits(64)) for _ in range(10000))


def multiplies(code, function):
    """How often the built function multiplies, and how often it reads a byte from memory."""
    body = code.split(f"<{function}>:\n", 1)[1].split("\n\n", 1)[0]
    return len(re.findall(r"\ti?mulx?[bwlq]? ", body)), len(re.findall(r"\tmovzb[lq] +[-0-9a-fx]*\(", body))


def main():
    library = ctypes.CDLL(str(pathlib.Path(sys.argv[1]).resolve()))
    code = pathlib.Path(sys.argv[2]).read_text()
    library.register_hash_bytes.argtypes = [ctypes.c_char_p, ctypes.c_size_t]
    library.register_hash_bytes.restype = ctypes.c_uint64
    library.register_hash_key.argtypes = [ctypes.c_uint64, ctypes.c_uint64]
    library.register_hash_key.restype = ctypes.c_uint64

    def built(data):
        return library.register_hash_bytes(data, len(data))

    chance = random.Random(1)
    vectors, lines = published()
    written = (PROGRAM / "stdout").read_text().splitlines()
    check("the program's expected lines are the published vectors", [] if written == lines else [written], len(lines))
    check("published vectors", [v for v in vectors if built(v[0]) != v[1]], len(vectors))
    check("the second program on the published vectors", [v for v in vectors if second.fnv1a(v[0]) != v[1]], len(vectors))
    slices = list(inputs(chance))
    check("slices, as the second program has them", [s for s in slices if built(s) != second.fnv1a(s)], len(slices))
    keys = list(pairs(chance))
    check("salts and identifiers, likewise", [k for k in keys if library.register_hash_key(*k) != second.key(*k)], len(keys))
    many, reads = multiplies(code, "register_hash_bytes")
    check("one multiply for each byte read, over slices", [] if many == reads else [(many, reads)], many)
    many, _ = multiplies(code, "register_hash_key")
    check("sixteen multiplies for a salt and an identifier", [] if many == 16 else [many], many)
    print(f"{passed} passed, {failed} failed")
    sys.exit(failed != 0)


main()
