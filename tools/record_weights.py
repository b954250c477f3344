"""Weights in bytes for a records file, as the rules V1 to V6 of docs/RECORDS.md want them: tools/make_records.py.

Each level's weights are counted in order and spread, so that none begins another. Primary weights have two bytes, and room
between them for letters that are put in by hand.
"""
from unicode_tables import COMMON_SECONDARY, COMMON_TERTIARY

# The first character of each group of the default table, and the leads that its primary weights get
GROUPS = (('\t', range(0x04, 0x05)), ('_', range(0x05, 0x07)), ('`', range(0x07, 0x0C)), ('\u00A4', range(0x0C, 0x0E)),
          ('0', range(0x11, 0x13)), ('a', range(0x2A, 0x60)))
A_LEAD = 42


class Weights:
    """The bytes of the weights of a file's elements."""

    def __init__(self, tables, elements, script):
        self.starts = [tables.first_primary(character) for character, _ in GROUPS]
        self.script = script
        primaries = {element.primary for element in elements if element.primary}
        self.primaries = self.primary_bytes(sorted(primaries, key=self.place))
        self.secondaries = spread({element.secondary for element in elements}, COMMON_SECONDARY, 0x46, 0xFF, 0xFF)
        self.tertiaries = spread({element.tertiary for element in elements}, COMMON_TERTIARY, 0x06, 0x3F, 0x3F)

    def group(self, primary):
        """The group of a weight: how many have begun before it, less one."""
        return sum(start <= primary for start in self.starts) - 1

    def place(self, primary):
        """Where a weight stands: by group, then the script that is first, then the rest."""
        lies_in = self.script and self.script[0][0] - 1 < primary[0] < self.script[1][0] + 1
        return max(self.group(primary), 0), not lies_in, primary

    def primary_bytes(self, primaries):
        """Two bytes for each weight, A_LEAD of them to a lead of their group."""
        given = {}
        for number, (_, leads) in enumerate(GROUPS):
            members = [primary for primary in primaries if self.place(primary)[0] == number]
            if len(members) > A_LEAD * len(leads):
                raise ValueError('too many primary weights of one group')
            for place, primary in enumerate(members):
                given[primary] = f'{leads[place // A_LEAD]:02X}{4 + 6 * (place % A_LEAD):02X}0000'
        return given

    def groups(self):
        """The upper halves behind spaces, punctuation, symbols and currency signs."""
        return ' '.join(f'{leads[-1] + 1:02X}00' for _, leads in GROUPS[:4])

    def compressible(self):
        """The leads of letters."""
        leads = {int(weight[:2], 16) for weight in self.primaries.values()}
        return ' '.join(f'{lead:02X}' for lead in sorted(leads) if lead in GROUPS[-1][1])

    def word(self, element):
        """An element as a line has it."""
        primary = self.primaries[element.primary] if element.primary else '0'
        return f'[{primary}.{self.secondaries[element.secondary]}.{element.case}.{self.tertiaries[element.tertiary]}.0]'


def spread(weights, common, low, high, last):
    """Bytes for the weights of a level but the first: the common one is 0500, those below it are 04 and a second byte."""
    below = sorted(weight for weight in weights if weight < common)
    above = sorted(weight for weight in weights if weight > common)
    step = (high - low) // (len(above) + 1)
    if not step or 2 + 4 * len(below) > last:
        raise ValueError('too many weights of one level')
    given = {weight: f'04{2 + 4 * place:02X}' for place, weight in enumerate(below)}
    given.update({weight: f'{low + step * (place + 1):02X}00' for place, weight in enumerate(above)})
    given[common] = '0500'
    return given
