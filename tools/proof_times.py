#!/usr/bin/env python3
"""Prints what proving each function of a crate took, by the files that its last check left.

  proof_times.py NAME [COUNT]

It reads when each file of crates/NAME/out/incremental was written: what passed since the one before it is taken for the
work on it. So it tells the truth of a check from nothing at one job (`rt lib --jobs 1` where there is no out/), and with
more jobs only which functions are dear beside others. The seconds are those of a clock, longer where the machine has more
to do. The function that is checked first of those that need a library is charged with loading it. Prints the COUNT
dearest functions, 30 unless it is given, after the sum.
"""
import collections
import os
import re
import sys

ROOT = os.path.dirname(os.path.dirname(os.path.realpath(__file__)))
# what is written of one function, or of one value in it
PARTS = re.compile(r'\.(Lts|Tie|Key|Kinds|Code|Statement|Proof|Goals|Met|Carried|Reads|TheLink)\b.*$')


def written(folder, crate):
    """When each file of a crate's functions was written, and the function's name, in the order of time."""
    for at, _, files in os.walk(folder):
        if os.path.basename(at) == 'records':
            continue
        for file in files:
            if file.startswith('Rattle-' + crate) and file.endswith('.oantt'):
                name = re.sub(r'^Rattle-\w+-(proofs|specs\.contracts|specs)\.', '', file[:-len('.oantt')])
                yield os.stat(os.path.join(at, file)).st_mtime, PARTS.sub('', name)


def main(words):
    if not 1 <= len(words) <= 2 or len(words) == 2 and not words[1].isdigit():
        sys.stderr.write(__doc__)
        return 2
    crate = words[0]
    files = sorted(written(os.path.join(ROOT, 'crates', crate, 'out', 'incremental'), crate))
    if not files:
        sys.exit(f'proof_times: crates/{crate} has kept no check')
    seconds, before = collections.Counter(), files[0][0]
    for time, name in files:
        seconds[name] += time - before
        before = time
    print(f'{before - files[0][0]:8.1f} s  together')
    for name, spent in seconds.most_common(int(words[1]) if len(words) == 2 else 30):
        print(f'{spent:8.1f} s  {name}')
    return 0


if __name__ == '__main__':
    sys.exit(main(sys.argv[1:]))
