#!/usr/bin/env python3
"""Compares the reader that the program prints with bindings/c/zerotrie_read.h, or with --write makes it anew."""
import os
import sys

os.chdir(os.path.join(os.path.dirname(os.path.abspath(__file__)), '..'))
MADE = 'crates/zerotrie_queries/src/code/c_reader.rt'
with open('bindings/c/zerotrie_read.h') as file:
    literal = file.read().replace('\\', '\\\\').replace('"', '\\"')
text = f'''//! The reader in C, made by `.ci/reader.py --write` of `bindings/c/zerotrie_read.h`.

/// The text of `zerotrie_read.h`.
pub const READER: &str =
    "{literal}";
'''
if sys.argv[1:] == ['--write']:
    with open(MADE, 'w') as out:
        out.write(text)
else:
    with open(MADE) as file:
        if file.read() != text:
            sys.exit(f'{MADE} is not made of zerotrie_read.h: run .ci/reader.py --write')
