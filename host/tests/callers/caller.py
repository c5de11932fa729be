"""A host in Python. It makes one call of a shared object that was made of the
archive, and prints the code and the bytes of the area.

    caller.py LIBRARY CALL FILE LENT PORT LIMIT BUDGET CARE.. VALUE..

A CALL of version 2 ends in _v2, and takes eight words of care and of value.
Without a CALL it prints what the library says of itself. A FILE of no bytes and
an area of none are handed over as NULL.
"""

import ctypes
import sys

NUMBERS = 11
NUMBERS_V2 = 19


def call_named(library, name):
    numbers = NUMBERS_V2 if name.endswith("_v2") else NUMBERS
    call = getattr(library, "fabric_" + name)
    slice_of_bytes = [ctypes.c_void_p, ctypes.c_size_t]
    call.argtypes = slice_of_bytes * 2 + [ctypes.c_uint32] * numbers
    call.restype = ctypes.c_uint64
    return call


def main(path, name=None, file=None, lent=None, *numbers):
    library = ctypes.CDLL(path)
    if name is None:
        print(ctypes.string_at(ctypes.addressof(ctypes.c_char.in_dll(library, "mwishovala_version"))).decode())
        return
    with open(file, "rb") as opened:
        read = opened.read()
    lent = int(lent)
    area = (ctypes.c_uint8 * lent)(*((i * 7 + 3) % 256 for i in range(lent)))
    code = call_named(library, name)(
        read or None, len(read), area if lent else None, lent, *(int(number) for number in numbers)
    )
    print(code % 256, "at", code // 256)
    print(bytes(area).hex())


main(*sys.argv[1:])
