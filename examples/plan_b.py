#!/usr/bin/env python3
"""plan_b.py LIBRARY: plans network B of document 01 by the shared library, and has the judge mark the plan."""
import ctypes
import os
import sys

SIZE = ctypes.c_size_t
library = ctypes.CDLL(os.path.abspath(sys.argv[1]))
library.tamchuwe_plan_text.argtypes = [ctypes.c_char_p, SIZE, ctypes.c_char_p, SIZE]
library.tamchuwe_plan_text.restype = SIZE
library.tamchuwe_plan.argtypes = [ctypes.c_char_p, SIZE, ctypes.c_char_p, SIZE,
                                  ctypes.POINTER(ctypes.c_uint64), SIZE, ctypes.POINTER(SIZE)]
library.tamchuwe_plan.restype = ctypes.c_uint64
library.tamchuwe_mark_text.argtypes = library.tamchuwe_plan_text.argtypes
library.tamchuwe_mark_text.restype = SIZE

network = open(os.path.join(os.path.dirname(os.path.abspath(__file__)), "b.net"), "rb").read()
text = ctypes.create_string_buffer(512)
length = library.tamchuwe_plan_text(network, len(network), text, len(text))
print(text.raw[:length].decode(), end="")
plan, values, count = ctypes.create_string_buffer(106), (ctypes.c_uint64 * 5)(), SIZE()
if library.tamchuwe_plan(network, len(network), plan, len(plan), values, len(values), count) != 1 or count.value < 5:
    sys.exit("no plan")
judged = network + plan.raw[:10 + 8 * values[0]]
length = library.tamchuwe_mark_text(judged, len(judged), text, len(text))
print(text.raw[:length].decode(), end="")
