#!/usr/bin/env python3
"""Calls the checker from Python, by ctypes and libpbcheck.so: `check.py LIBRARY PROBLEM PROOF`."""
import ctypes, sys


class Bound(ctypes.Structure):
    _fields_ = [("kind", ctypes.c_uint8), ("negative", ctypes.c_bool), ("high", ctypes.c_uint64), ("low", ctypes.c_uint64)]

    def __str__(self):
        size = self.high * 2**64 + self.low
        return {1: str(-size if self.negative else size), 2: "-INF", 3: "INF"}[self.kind]


class Report(ctypes.Structure):
    _fields_ = [
        ("status", ctypes.c_uint8),
        ("conclusion", ctypes.c_uint8),
        ("code", ctypes.c_uint8),
        ("has_best", ctypes.c_bool),
        ("line", ctypes.c_uint64),
        ("lower", Bound),
        ("upper", Bound),
        ("variables", ctypes.c_uint64),
        ("name", ctypes.c_char * 32),
    ]


CONCLUSIONS = {1: "NONE", 2: "SAT", 3: "UNSAT", 4: "BOUNDS"}


def check(library, problem, proof, room=1 << 16):
    """The report, the values of the best solution, and the text. Where there was no room for all of these it calls once more."""
    report, values, text = Report(), (ctypes.c_uint8 * room)(), (ctypes.c_uint8 * room)()
    sizes = ctypes.c_size_t
    library.pbcheck_check.restype = sizes
    printed = library.pbcheck_check(problem, sizes(len(problem)), proof, sizes(len(proof)), ctypes.byref(report), values, sizes(room), text, sizes(room))
    if max(printed, report.variables) > room:
        return check(library, problem, proof, max(printed, report.variables))
    return report, list(values[: report.variables]), bytes(text[:printed]).decode()


def main():
    library = ctypes.CDLL(sys.argv[1])
    problem, proof = (open(it, "rb").read() for it in sys.argv[2:])
    report, values, text = check(library, problem, proof)
    if report.conclusion == 4:
        print(CONCLUSIONS[report.conclusion], report.lower, report.upper, values)
    elif report.conclusion:
        print(CONCLUSIONS[report.conclusion], values)
    else:
        print(f"status {report.status}, line {report.line}, code {report.code}, {report.name.decode()}")
    print(text, end="")
    sys.exit(report.status)


if __name__ == "__main__":
    main()
