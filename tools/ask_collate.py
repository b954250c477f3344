"""Asks `collate_unicode` for the keys of texts: the executable that it was built as, or the one that COLLATE names."""
import os
import subprocess

ROOT = os.path.dirname(os.path.dirname(os.path.realpath(__file__)))
PROGRAM = os.environ.get('COLLATE', os.path.join(ROOT, 'crates/collate_unicode/out/collate_unicode'))


class Refused(Exception):
    """What the program said instead of keys."""


def keys(records, texts, options=()):
    """The keys of texts without line feeds and surrogates, in hexadecimal digits, which order as the keys do."""
    commands = ''.join(f'key {text}\n' for text in texts).encode()
    try:
        answer = subprocess.run([PROGRAM, records, *options], input=commands, stdout=subprocess.PIPE, stderr=subprocess.PIPE, check=False)
    except OSError as error:
        raise Refused(f'{PROGRAM}: {error.strerror} (./collate --unicode builds it)') from error
    lines = answer.stdout.split(b'\n')[:-1]
    if answer.returncode or len(lines) != len(texts):
        raise Refused(answer.stderr.decode().strip() or f'{len(lines)} keys of {len(texts)} texts')
    return lines
