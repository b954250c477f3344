"""Weights for the nodes that rules put in (tailored_nodes.py): bytes between those of the root, of which none begins another.

Primary weights have two to four bytes, as few as there is room for, spread over the room; secondary and tertiary ones have
two, under a first byte that is no weight of the root by itself (docs/RECORDS.md, rules V2 to V5).
"""
import bisect

from tailored_nodes import COMMON, PRIMARY, QUATERNARY, SECONDARY, TERTIARY, NotTold

# the first bytes that rules V3 and V4 leave a level, and the last byte that may stand second
LEADS = {SECONDARY: [3, 4, *range(0x46, 0x100)], TERTIARY: [2, 3, 4, *range(6, 0x40)]}
LAST = {SECONDARY: 0xFF, TERTIARY: 0x3F}
# weights above the common one stand behind those that a key uses for runs of it
RUNS = {SECONDARY: (0x45, 0xFF), TERTIARY: COMMON}
# what has no primary weight is above what has one, and what has no secondary one likewise
IGNORABLE = {SECONDARY: (0x80,), TERTIARY: (0x3C,)}


class PrimaryRoom:
    """Counts the primary weights of so many bytes, in their order."""

    def __init__(self, compressible, length):
        self.length = length
        self.first = [4 if lead in compressible else 2 for lead in range(0x100)]
        self.sizes = [254 ** (length - 2) * (251 if lead in compressible else 254) for lead in range(0x100)]
        self.below = [sum(self.sizes[:lead]) for lead in range(0x100)]

    def rank(self, start):
        """How many weights are below the first that begins with these bytes."""
        lead, *rest = start
        rank = self.below[lead]
        for place, byte in enumerate(rest[:self.length - 1]):
            rank += max(byte - (2 if place else self.first[lead]), 0) * 254 ** (self.length - 2 - place)
        return rank

    def count(self, start):
        """How many weights begin with these bytes."""
        return self.sizes[start[0]] if len(start) == 1 else 254 ** max(self.length - len(start), 0)

    def weight(self, rank):
        """The weight with so many below it."""
        lead = bisect.bisect_right(self.below, rank) - 1
        rank -= self.below[lead]
        found = [lead]
        for left in range(self.length - 2, -1, -1):
            place, rank = divmod(rank, 254 ** left)
            found.append(place + (self.first[lead] if len(found) == 1 else 2))
        return tuple(found)


def primaries_between(low, high, count, compressible):
    """So many primary weights between two of the root, spread evenly."""
    for length in (2, 3, 4):
        room = PrimaryRoom(compressible, length)
        first = room.rank(low) + room.count(low[:length])
        free = room.rank(high) - first
        if free >= count:
            return [room.weight(first + (2 * number + 1) * free // (2 * count)) for number in range(count)]
    raise NotTold('no room between the primary weights of the root')


def weak_between(level, low, high, count, taken):
    """So many weights of a level between two, of two bytes, under first bytes that are not `taken`."""
    if low == ():
        low = (IGNORABLE[level][0] - 1, 0xFF)
    elif low >= COMMON:
        low = max(low, RUNS[level])
    free = [(lead, byte) for lead in LEADS[level] if lead not in taken and low[:1] <= (lead,) <= high[:1]
            for byte in range(2, LAST[level] + 1)]
    free = [weight for weight in free if low < weight < high and weight[:len(low)] != low]
    if len(free) < count:
        raise NotTold('no room between the weights of a level of the root')
    return [free[(2 * number + 1) * len(free) // (2 * count)] for number in range(count)]


def count_of(node, strength):
    """How many nodes of this strength are put in from a node on."""
    count = 0
    while node and node.strength >= strength:
        if node.strength == strength:
            if not node.is_tailored:
                break
            count += 1
        node = node.following
    return count


class Assigning:
    """Gives the nodes behind one of a primary weight of the root their elements."""

    def __init__(self, root, compressible, taken):
        self.root, self.compressible, self.taken = root, compressible, taken

    def assign(self, head):
        """Goes through the nodes; where there is no room, the elements of nodes stay None."""
        self.weights = {PRIMARY: head.weight, SECONDARY: COMMON if head.weight else (), TERTIARY: COMMON if head.weight else ()}
        self.left = {}
        self.quaternary = 0
        node = head.following
        while node:
            self.take(node)
            if node.is_tailored and None not in self.weights.values():
                node.element = (*(self.weights[level] for level in (PRIMARY, SECONDARY, TERTIARY)), self.quaternary)
            node = node.following

    def take(self, node):
        """Moves on to the weights of a node."""
        level = node.strength
        if level == QUATERNARY:
            self.quaternary += 1
            return
        if not node.is_tailored:
            self.weights[level] = node.weight
            self.left.pop(level, None)
        else:
            if level not in self.left:
                self.left[level] = self.weights_of(node, level)[::-1]
            self.weights[level] = self.left[level].pop() if self.left[level] else None
        for weaker in range(level + 1, QUATERNARY):
            self.weights[weaker] = COMMON if weaker == SECONDARY or self.weights[SECONDARY] != () else ()
            self.left.pop(weaker, None)
        self.quaternary = 0

    def weights_of(self, node, level):
        """The weights for a node and those like it behind it; none where there is no room."""
        count = count_of(node, level)
        try:
            if level == PRIMARY:
                low = self.weights[PRIMARY]
                return primaries_between(low, self.root.after(low), count, self.compressible)
            low = self.weights[level]
            if low is None:
                return []
            return weak_between(level, low, self.limit(level), count, self.taken[level])
        except NotTold:
            return []

    def limit(self, level):
        """What the weights of a level are below."""
        primary, secondary, tertiary = (self.weights[level] for level in (PRIMARY, SECONDARY, TERTIARY))
        low = self.weights[level]
        if () < low < COMMON and self.is_put_in(level):
            return COMMON
        if level == SECONDARY:
            if low == ():
                return self.root.first_ignorable
            return IGNORABLE[level] if self.is_put_in(level) else self.root.secondary_after(primary, secondary)
        if secondary == ():
            return (0x40,)
        return IGNORABLE[level] if self.is_put_in(level) else self.root.tertiary_after(primary, secondary, tertiary)

    def is_put_in(self, level):
        """Whether a stronger weight is of a node that was put in."""
        return any(stronger in self.left for stronger in range(PRIMARY, level))
