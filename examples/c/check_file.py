#!/usr/bin/env python3
"""Checks a file as check_file.c does, by ctypes over the shared library: check_file.py LIBRARY AFF DIC FILE."""

import ctypes
import sys
from ctypes import POINTER, byref, c_bool, c_char_p, c_size_t, c_uint32, c_uint64, c_void_p

DONE, FAULTY = 0, 3


def fail(why):
    """Ends with status 2."""
    print(why, file=sys.stderr)
    sys.exit(2)


class Dictionary(ctypes.Structure):
    """affedit_dictionary; as it is made here, with zeros, it is closed."""
    _fields_ = [('held', c_void_p), ('is_open', c_bool)]


class Fault(ctypes.Structure):
    """affedit_fault."""
    _fields_ = [('line', c_uint64), ('file', c_uint32), ('cause', c_uint32)]


class Mark(ctypes.Structure):
    """affedit_mark."""
    _fields_ = [('start', c_uint32), ('end', c_uint32)]


def load(name):
    """The library, with the types of the functions that are called here."""
    library = ctypes.CDLL(name)
    library.affedit_cause.argtypes = [POINTER(Fault), c_char_p, c_size_t]
    library.affedit_cause.restype = c_size_t
    library.affedit_open.argtypes = [c_char_p, c_size_t, c_char_p, c_size_t, POINTER(Dictionary), POINTER(Fault)]
    library.affedit_open.restype = c_uint32
    library.affedit_marks.argtypes = [POINTER(Dictionary), c_char_p, c_size_t, POINTER(Mark), c_size_t, POINTER(c_size_t)]
    library.affedit_marks.restype = c_uint32
    library.affedit_close.argtypes = [POINTER(Dictionary)]
    library.affedit_close.restype = None
    return library


def read(name):
    """The bytes of a file."""
    try:
        with open(name, 'rb') as file:
            return file.read()
    except OSError as error:
        fail(error)


def opened(library, aff, dic):
    """A handle on the dictionary of two files, which the caller closes."""
    dictionary, fault = Dictionary(), Fault()
    answer = library.affedit_open(aff, len(aff), dic, len(dic), byref(dictionary), byref(fault))
    if answer == FAULTY:
        why = ctypes.create_string_buffer(200)
        length = library.affedit_cause(byref(fault), why, len(why))
        fail(f'file {fault.file}, line {fault.line}: {why.raw[:length].decode()}')
    if answer != DONE:
        fail(f'affedit_open: answer {answer}')
    return dictionary


def marks_of(library, dictionary, text):
    """The marks of a text, as pairs of bytes."""
    marks = (Mark * (len(text) // 2 + 1))()
    count = c_size_t()
    answer = library.affedit_marks(byref(dictionary), text, len(text), marks, len(marks), byref(count))
    if answer != DONE:
        fail(f'affedit_marks: answer {answer}')
    return [(mark.start, mark.end) for mark in marks[:count.value]]


def main():
    """Prints LINE:COLUMN: WORD for each mark; the status is 1 if there is one."""
    if len(sys.argv) != 5:
        fail('usage: check_file.py LIBRARY AFF DIC FILE')
    library, text = load(sys.argv[1]), read(sys.argv[4])
    dictionary = opened(library, read(sys.argv[2]), read(sys.argv[3]))
    marks = marks_of(library, dictionary, text)
    library.affedit_close(byref(dictionary))
    for start, end in marks:
        begin = text.rfind(b'\n', 0, start) + 1
        print(f'{text.count(bytes([10]), 0, start) + 1}:{len(text[begin:start].decode()) + 1}: {text[start:end].decode()}')
    return len(marks) > 0


if __name__ == '__main__':
    sys.exit(main())
