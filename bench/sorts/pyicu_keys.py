"""The lines of standard input in the order of PyICU's keys, of the root at Tertiary."""
import sys

import icu

names = sys.stdin.buffer.read().decode().split('\n')[:-1]
names.sort(key=icu.Collator.createInstance(icu.Locale.getRoot()).getSortKey)
sys.stdout.buffer.write('\n'.join([*names, '']).encode())
