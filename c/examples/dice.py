"""Rolls a die by ctypes. Each run prints the same."""

import ctypes

library = ctypes.CDLL("libnanorand.so.1")  # or its path
library.nanorand_v1_wyrand_seed_from_u64.argtypes = [ctypes.c_void_p, ctypes.c_uint64]
library.nanorand_v1_wyrand_seed_from_u64.restype = None
library.nanorand_v1_wyrand_below.argtypes = [ctypes.c_void_p, ctypes.c_uint64]
library.nanorand_v1_wyrand_below.restype = ctypes.c_uint64

rng = ctypes.c_uint64()  # the struct nanorand_wyrand has one field, a uint64_t
library.nanorand_v1_wyrand_seed_from_u64(ctypes.byref(rng), 42)
print(f"You rolled {1 + library.nanorand_v1_wyrand_below(ctypes.byref(rng), 6)}.")
