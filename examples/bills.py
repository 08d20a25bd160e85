"""The library from Python: a sheet played, an advance shared out, and the demand of a period."""
import ctypes
import sys

LISTING_BYTES = 16_384


class Portion(ctypes.Structure):
    _fields_ = [(name, ctypes.c_uint32) for name in ("takes_part", "weight", "share")]


class Reading(ctypes.Structure):
    _fields_ = [(name, ctypes.c_uint32) for name in ("customer", "end_day", "tenths", "mark", "initial")]


class Period(ctypes.Structure):
    _fields_ = [(name, ctypes.c_uint32) for name in ("customer", "end_day", "kwh", "usage_days", "initial")]


class Refused(Exception):
    """A call that was refused, by its number."""


def loaded(path):
    library = ctypes.CDLL(path)
    size, number = ctypes.c_size_t, ctypes.c_uint32
    library.pekstuvna_list_sheet.argtypes = [ctypes.c_char_p, size, ctypes.c_char_p, size]
    library.pekstuvna_share_out.argtypes = [number, ctypes.POINTER(Portion), size]
    library.pekstuvna_estimate.argtypes = [number, number, number]
    library.pekstuvna_demand.argtypes = [
        ctypes.POINTER(Reading),
        size,
        ctypes.POINTER(Period),
        ctypes.c_char_p,
        size,
        ctypes.POINTER(ctypes.c_uint64),
    ]
    for name in ("list_sheet", "share_out", "estimate", "demand"):
        getattr(library, "pekstuvna_" + name).restype = ctypes.c_int64
    return library


def accepted(number):
    if number < 0:
        raise Refused(-number)
    return number


def list_sheet(library, sheet):
    buffer = ctypes.create_string_buffer(LISTING_BYTES)
    count = accepted(library.pekstuvna_list_sheet(sheet, len(sheet), buffer, len(buffer)))
    return buffer.raw[:count].decode("ascii")


def share_out(library, total, usage_days):
    months = (Portion * len(usage_days))(*[(1, days, 0) for days in usage_days])
    accepted(library.pekstuvna_share_out(total, months, len(usage_days)))
    return [month.share for month in months]


def demand(library, book, period, rate):
    entries = (Reading * max(len(book), 1))(*book)
    tenths = ctypes.c_uint64()
    answer = accepted(
        library.pekstuvna_demand(entries, len(book), ctypes.byref(period), rate, len(rate), ctypes.byref(tenths))
    )
    return answer, tenths.value


def main():
    library = loaded(sys.argv[1])
    sheet = b"1 PREMISE\nE-12 5 100 99500 7\n3 CALLS\nM 108\nM 138\nR 168 800\n"
    print(list_sheet(library, sheet), end="")
    print("shared out:", share_out(library, 100, [30, 30, 31]))
    try:
        share_out(library, 100, [0, 0])
    except Refused as refusal:
        print("no usage days: refused by", refusal)
    print("estimate:", accepted(library.pekstuvna_estimate(350, 30, 31)))
    print("demand:", demand(library, [], Period(7, 100, 600, 30, 0), b"ECT-1R"))


if __name__ == "__main__":
    main()
