"""The leads of records/root.records: which first bytes of primary weights each group and script has, and which are free.

The order is FractionalUCA's. Scripts that a language of CLDR puts elsewhere have leads of their own, since `set reorder`
exchanges whole leads, each with one that is alike compressible; for the same reason some leads of both kinds are free
before and behind the Latin letters. Comment lines of the file tell the leads to tools/make_language.py:

  # leads FIRST LAST free|plain|compressed [SCRIPT..]
"""
import collections
import re

from root_data import FRACTIONAL, Fault

# The scripts that languages of CLDR put elsewhere (`[reorder ..]` in common/collation), Latin and Han aside
MOVED = set('Grek Cyrl Geor Armn Hebr Arab Ethi Deva Beng Guru Gujr Orya Taml Telu Knda Mlym Sinh Thai Laoo Tibt Mymr Khmr '
            'Mong Cher Hang Kana Bopo'.split())
NUMERIC = 0x0F
DIGIT_LEADS = range(0x10, 0x27)
# the digits 0 to 9 have one byte each in FractionalUCA, these alone among DIGIT_LEADS, and share a lead here
LOW_DIGITS, TEN_DIGITS = range(0x10, 0x13), 0x13
FREE_BEFORE_LATIN = ((0x14, 0x1F, 'compressed'), (0x20, 0x26, 'plain'), (0x27, 0x28, 'compressed'))
LATIN = range(0x29, 0x5E)
FREE_BEHIND_LATIN = ((0x5E, 0x5E, 'compressed'), (0x5F, 0x64, 'plain'))
SCRIPTS_FROM = 0x65
# behind the scripts: what a language puts behind all others (Han by readings), Han, and what may stand behind it
TAILORED_HAN, RANGE_LEADS, FREE_AT_END = 2, 2, 8
# the byte behind a lead that is a weight by itself in FractionalUCA
MIDDLE = 0x80

# Some leads: the first, the last, 'plain' or 'compressed', whether they are free, and their scripts or groups
Leads = collections.namedtuple('Leads', 'first last kind is_free names')


class Plan:
    """Where primary weights of FractionalUCA go."""

    def __init__(self, fractional, scripts):
        self.names = {(primary, text): self.name_of(text, comment, scripts) for primary, text, comment in fractional.starts}
        self.starts = sorted((primary, name) for (primary, _), name in self.names.items())
        self.leads = [*self.low_leads(), *self.script_leads()]
        self.add_han()

    @staticmethod
    def name_of(text, comment, scripts):
        """The script or the group that begins."""
        word = comment.split()[0]
        if text[0] == 0xFDD1 and word not in ('SPACE', 'PUNCTUATION', 'SYMBOL', 'CURRENCY', 'DIGIT', 'unassigned'):
            return scripts.get(text[1], word)
        return word

    def start(self, name):
        """The first primary weight of a group."""
        for primary, begun in self.starts:
            if begun == name:
                return primary
        raise Fault(FRACTIONAL, f'no first primary of {name}')

    def low_leads(self):
        """The leads up to Latin."""
        symbol, digit = self.start('SYMBOL')[0], self.start('DIGIT')[0]
        yield Leads(self.start('SPACE')[0], symbol - 1, 'plain', False, ['SPACE', 'PUNCTUATION'])
        yield Leads(symbol, digit - 1, 'plain', False, ['SYMBOL', 'CURRENCY'])
        yield Leads(NUMERIC, TEN_DIGITS, 'plain', False, ['DIGIT'])
        for first, last, kind in FREE_BEFORE_LATIN:
            yield Leads(first, last, kind, True, [])
        yield Leads(LATIN[0], LATIN[-1], 'plain', False, ['Latn'])
        for first, last, kind in FREE_BEHIND_LATIN:
            yield Leads(first, last, kind, True, [])

    def script_leads(self):
        """A lead for each script that may move, and for what stands between two such, or two leads of FractionalUCA."""
        self.segments = []  # first weight, new lead
        names = {}
        for primary, name in self.starts:
            if not LATIN[-1] + 2 < primary[0] or name in ('Hani', 'unassigned'):
                continue
            names.setdefault(primary, []).append(name)
        lead, last = SCRIPTS_FROM - 1, None
        made = []
        for primary, begun in names.items():
            if not last or last[0] != primary[0] or MOVED & {*begun, *made[-1].names}:
                lead += 1
                made.append(Leads(lead, lead, 'compressed', False, []))
                self.segments.append((primary, lead))
            made[-1].names.extend(begun)
            last = primary
        return made

    def add_han(self):
        """The leads behind the scripts."""
        first = self.leads[-1].last + 1
        self.han, self.ranges = first + TAILORED_HAN, range(first + TAILORED_HAN + 1, first + TAILORED_HAN + 1 + RANGE_LEADS)
        self.leads.append(Leads(first, self.ranges[-1], 'plain', False, ['Hani']))
        self.leads.append(Leads(self.ranges[-1] + 1, self.ranges[-1] + FREE_AT_END, 'plain', True, []))
        missing = MOVED - {name for leads in self.leads for name in leads.names}
        if missing:
            raise Fault(FRACTIONAL, f'no first primary of {" ".join(sorted(missing))}')

    def compressed(self):
        """The compressible leads."""
        return [lead for leads in self.leads if leads.kind == 'compressed' for lead in range(leads.first, leads.last + 1)]

    def weight(self, primary, place):
        """The bytes here of a primary weight of FractionalUCA; `place` names its line."""
        lead = primary[0]
        if lead in DIGIT_LEADS and lead not in LOW_DIGITS:
            if len(primary) > 1 or lead % 2 == 0 or (lead - TEN_DIGITS) // 2 > 9:
                raise Fault(place, 'a digit whose weight is not of one byte')
            return (TEN_DIGITS, 0x18 + 0x18 * ((lead - TEN_DIGITS) // 2))
        if lead > LATIN[-1]:
            found = [new for first, new in self.segments if first[0] == lead and first <= primary]
            if not found or len(primary) < 2:
                raise Fault(place, f'a weight of no script: {show(primary)}')
            return (found[-1], *primary[1:])
        if lead in range(self.start('DIGIT')[0], LOW_DIGITS[0]) or lead in range(DIGIT_LEADS[-1] + 1, LATIN[0]):
            raise Fault(place, f'a weight under a free lead: {show(primary)}')
        return primary if len(primary) > 1 else (lead, MIDDLE)

    def boundary(self, primary, name):
        """The weight here of one that FractionalUCA has before the first of a group or script; None where it isn't kept."""
        if name == 'Hani':
            return (self.leads_of(name).first, 2, 2)
        if name == 'DIGIT':
            return (LOW_DIGITS[0], 2, 2)
        is_kept = primary[0] < self.start('DIGIT')[0] or primary[0] >= self.segments[0][0][0] or name == 'Latn'
        return self.weight(primary, name) if is_kept and name != 'unassigned' else None

    def boundaries(self):
        """Weights that stand before the first one of each group and script, and of each run of leads; nothing has them."""
        found = {(leads.first, 4 if leads.kind == 'compressed' else 2, 2) for leads in self.leads} | {(self.ranges[0], 2, 2)}
        return found | {self.boundary(*start) for start in self.starts} - {None}

    def leads_of(self, name):
        """The leads of a script or a group; None where it shares them."""
        for leads in self.leads:
            if name in leads.names and (leads.names == [name] or name in ('SPACE', 'SYMBOL') or {'Hira', 'Kana'} == {*leads.names}):
                return leads
        return None

    def groups(self):
        """The upper halves behind spaces, punctuation, symbols and currency signs."""
        ends = [self.start(name) for name in ('PUNCTUATION', 'SYMBOL', 'CURRENCY', 'DIGIT')]
        return [(first[0], first[1] if first[1] > 2 else 0) for first in ends]

    def comments(self):
        """The lines that tell the leads."""
        for leads in self.leads:
            words = ['free'] if leads.is_free else []
            yield ' '.join(['# leads', f'{leads.first:02X} {leads.last:02X}', *words, leads.kind, *leads.names])


def show(primary):
    return ' '.join(f'{byte:02X}' for byte in primary)


def parse(lines):
    """The leads that the comment lines of a file tell."""
    found = []
    for line in lines:
        said = re.fullmatch(r'# leads ([0-9A-F]{2}) ([0-9A-F]{2})( free)? (plain|compressed)((?: \w+)*)', line)
        if said:
            found.append(Leads(int(said[1], 16), int(said[2], 16), said[4], bool(said[3]), said[5].split()))
    return found
