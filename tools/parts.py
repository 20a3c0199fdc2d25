#!/usr/bin/env python3
"""Packs table files for jointables: count (1 byte), lengths (4 bytes each), the tables. Usage: parts.py TABLE ... > INPUT"""
import pathlib
import sys


def packed(tables):
    return bytes([len(tables) % 256]) + b''.join(len(t).to_bytes(4, 'little') for t in tables) + b''.join(tables)


if __name__ == '__main__':
    if len(sys.argv) < 2 or len(sys.argv) > 17:
        sys.exit(__doc__)
    sys.stdout.buffer.write(packed([pathlib.Path(p).read_bytes() for p in sys.argv[1:]]))
