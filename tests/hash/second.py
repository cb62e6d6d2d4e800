"""64-bit FNV-1a, a second time, written from its authors' description alone."""


def fnv1a(data):
    state = 0xCBF29CE484222325
    for byte in data:
        state = ((state ^ byte) * 0x100000001B3) % 2**64
    return state


def key(salt, identifier):
    return fnv1a(salt.to_bytes(8, "little") + identifier.to_bytes(8, "little"))
