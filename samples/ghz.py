#!/usr/bin/env python3
"""Writes the sample stream to standard output: python3 samples/ghz.py > samples/ghz.run"""
import struct, sys

h = 0.7071067811865476
hadamard = [[h, 0, h, 0], [0, h, 0, h], [h, 0, -h, 0], [0, h, 0, -h]]  # on the first qubit of two
parts = [p for row in hadamard for x in row for p in (x, 0.0)]  # real part first
record = lambda kind, body: struct.pack("<HH", 2 + len(body), kind) + body
stream = record(1, struct.pack("<BBBdd", 3, 4, 20, 1e-12, 1e-15))  # start: n, D, exponent, epsilon, clamp
stream += record(2, struct.pack("<BB32d", 0, 1, *parts))  # gate on 0 and 1
stream += record(3, bytes([0, 1, 1])) + record(3, bytes([1, 2, 1]))  # Cx on 0 and 1, then on 1 and 2
stream += record(4, bytes([2, 1])) + record(5, struct.pack("<BBd", 0, 5, 0.25))  # projection, measure
stream += record(3, bytes([0, 0, 2])) + record(6, struct.pack("<Bd", 2, 0.5))  # a refused gate, reset
sys.stdout.buffer.write(stream + record(4, bytes([2, 0])) + record(9, b""))  # projection, no such kind
