"""check KIND FILE MOMENT TA [CA ..]: the status of an object, its text, and the rows of a ROA.

As check.c, through the shared library, which LIBRPKI_CHECK names.
"""
import ctypes
import ipaddress
import os
import sys


class Octets(ctypes.Structure):
    _fields_ = [("at", ctypes.c_char_p), ("length", ctypes.c_size_t)]


class Moment(ctypes.Structure):
    _fields_ = [("year", ctypes.c_uint16)] + [
        (part, ctypes.c_uint8) for part in ("month", "day", "hour", "minute", "second")]


class Question(ctypes.Structure):
    _fields_ = [("anchor", Octets),
                ("chain", ctypes.POINTER(Octets)), ("chain_length", ctypes.c_size_t),
                ("lists", ctypes.POINTER(Octets)), ("lists_length", ctypes.c_size_t),
                ("moment", Moment)] + [
        (option, ctypes.c_uint8) for option in ("relaxed", "registered", "wide")]


class Payload(ctypes.Structure):
    _fields_ = [("address", ctypes.c_uint8 * 16), ("asn", ctypes.c_uint32)] + [
        (part, ctypes.c_uint8) for part in ("family", "prefix_length", "max_length", "zero")]


LIBRARY = ctypes.CDLL(os.environ["LIBRPKI_CHECK"])
for name in "version", "object", "roa":
    getattr(LIBRARY, f"rpki_check_{name}").restype = ctypes.c_uint32


def room(call, item, *words):
    """The status of a call, and what it writes: it is asked how much that is, and then for it."""
    count = ctypes.c_size_t()
    call(*words, None, ctypes.c_size_t(0), ctypes.byref(count))
    items = (item * count.value)()
    status = call(*words, items, count, ctypes.byref(count))
    return status, items[:count.value]


def main(kind, path, moment, *certs):
    octets = [open(file, "rb").read() for file in (path, *certs)]
    lent = [Octets(it, len(it)) for it in octets]
    chain = (Octets * len(lent[2:]))(*lent[2:])
    date = Moment(int(moment[:4]), *(int(moment[i:i + 2]) for i in range(4, 14, 2)))
    question = Question(lent[1], chain, len(chain), None, 0, date)
    asked, size = ctypes.byref(question), ctypes.c_size_t(len(octets[0]))
    status, text = room(LIBRARY.rpki_check_object, ctypes.c_char, asked, ctypes.c_uint32(int(kind)),
                        octets[0], size)
    print(f"{status}\n{text.decode()}")
    _, rows = room(LIBRARY.rpki_check_roa, Payload, asked, octets[0], size)
    for row in rows:
        address = ipaddress.ip_address(bytes(row.address[:4 if row.family == 4 else 16]))
        print(f"origin {address}/{row.prefix_length}-{row.max_length}")
    return status != 0


if __name__ == "__main__":
    if LIBRARY.rpki_check_version() >> 16 != 1:
        sys.exit("another version of librpki_check")
    sys.exit(main(*sys.argv[1:]))
