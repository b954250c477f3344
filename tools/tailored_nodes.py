"""Where rules put what they order: a list of nodes for each primary weight of the root, as ICU's builder of collators keeps it.

A node stands for a weight of a level. Behind that of a primary weight follow those of its secondary weights, behind each of
these those of its tertiary weights, and nodes that rules put in stand among them, behind all that is weaker than they are.
Weights are bytes; COMMON is the plain one. What a rule does to the list is that of ICU4C's collationbuilder.cpp, so that the
order is; the weights are found at the end (tailored_weights.py).
"""
import bisect

COMMON = (5,)
# stands before all weights of a level, where a rule puts something before the first
BEFORE = (1,)
PRIMARY, SECONDARY, TERTIARY, QUATERNARY, IDENTICAL = 1, 2, 3, 4, 5


class NotTold(Exception):
    """Why a rule cannot be followed."""


class Node:
    """A weight of a level, or a place for one where `is_tailored`; its element in the end."""

    def __init__(self, strength, weight, is_tailored=False):
        self.strength, self.weight, self.is_tailored = strength, weight, is_tailored
        self.has_before = {SECONDARY: False, TERTIARY: False}
        self.previous = self.following = None
        self.element = None

    def link(self, node):
        """Puts a node behind this one."""
        node.previous, node.following = self, self.following
        if self.following:
            self.following.previous = node
        self.following = node
        return node

    def before(self, strength):
        """The node before this one that is that strong; nodes of primary weights have none before them."""
        node = self
        while node.strength > strength:
            node = node.previous
        return node


class Element:
    """An element in work: of a node, of this strength, or of the root; a case."""

    def __init__(self, node=None, strength=IDENTICAL, weights=None, case=0):
        self.node, self.weights, self.case = node, weights, case
        if weights is not None:
            primary, secondary, tertiary = weights
            strength = PRIMARY if primary else SECONDARY if secondary else TERTIARY if tertiary else IDENTICAL
        self.strength = strength


class RootWeights:
    """The weights of the root: primary ones in order, the others under them."""

    def __init__(self, elements, boundaries):
        self.secondaries, self.tertiaries = {(): set()}, {}
        for primary, secondary, tertiary in elements:
            self.secondaries.setdefault(primary, set()).add(secondary)
            self.tertiaries.setdefault((primary, secondary), set()).add(tertiary)
        self.primaries = sorted({primary for primary in self.secondaries if primary} | set(boundaries))
        self.boundaries = set(boundaries)
        self.first_ignorable = min(self.secondaries[()] - {()})

    def after(self, primary):
        """The primary weight behind one."""
        return self.primaries[bisect.bisect_right(self.primaries, primary)]

    def primary_before(self, primary):
        return self.primaries[bisect.bisect_left(self.primaries, primary) - 1]

    def secondary_after(self, primary, secondary):
        """The next secondary weight under a primary one, or that behind all of them."""
        above = [weight for weight in self.secondaries.get(primary, ()) if weight > secondary]
        return min(above, default=(0x80,) if primary else (0x100,))

    def tertiary_after(self, primary, secondary, tertiary):
        above = [weight for weight in self.tertiaries.get((primary, secondary), ()) if weight > tertiary]
        return min(above, default=(0x3C,))

    def weight_before(self, level, primary, secondary, tertiary):
        """The weight of a level before one; BEFORE where there is none."""
        if level == SECONDARY:
            known, weight = {*self.secondaries.get(primary, ())} | ({COMMON} if primary else set()), secondary
        else:
            known = {*self.tertiaries.get((primary, secondary), ())} | ({COMMON} if secondary == COMMON and primary else set())
            weight = tertiary
        below = [other for other in known if other and other < weight]
        return max(below, default=BEFORE if primary or level == TERTIARY else ())


class Nodes:
    """The lists of nodes."""

    def __init__(self, root):
        self.root = root
        self.heads = {(): Node(PRIMARY, ())}

    def of_primary(self, primary):
        """The node of a primary weight."""
        if primary not in self.heads:
            self.heads[primary] = Node(PRIMARY, primary)
        return self.heads[primary]

    def of_weights(self, weights, strength):
        """The node of weights of the root, as strong as asked for."""
        node = self.of_primary(weights[0])
        for level in (SECONDARY, TERTIARY):
            if strength >= level:
                node = self.of_weak(node, weights[level - 1], level)
        return node

    def of_weak(self, node, weight, level):
        """The node of a secondary or tertiary weight under a node."""
        if weight == COMMON:
            return self.common(node, level)
        if weight and weight < COMMON and not node.has_before[level]:
            return self.first_below_common(node, weight, level)
        last, following = node, node.following
        while following:
            if following.strength < level:
                break
            if following.strength == level and not following.is_tailored:
                if following.weight == weight:
                    return following
                if following.weight > weight:
                    break
            last, following = following, following.following
        return last.link(Node(level, weight))

    @staticmethod
    def first_below_common(node, weight, level):
        """The node of a weight below the common one, which gets a node of its own then."""
        plain = Node(level, COMMON)
        if level == SECONDARY:
            plain.has_before[TERTIARY], node.has_before[TERTIARY] = node.has_before[TERTIARY], False
        node.has_before[level] = True
        low = node.link(Node(level, weight))
        low.link(plain)
        return low

    @staticmethod
    def common(node, level):
        """The node of the common weight of a level under a node: this one, where it says so too."""
        if node.strength >= level or not node.has_before[level]:
            return node
        node = node.following.following
        while node.is_tailored or node.strength > level or node.weight < COMMON:
            node = node.following
        return node

    def of_elements(self, elements, strength):
        """The node of the last element that is as strong as asked for; weaker ones behind it are taken off."""
        while elements and elements[-1].strength > strength:
            elements.pop()
        if not elements:
            elements.append(Element(weights=((), (), ())))
        last = elements[-1]
        if last.node:
            return last.node
        if last.weights[0] and last.weights[0][0] >= 0xFD:
            raise NotTold('behind a character that the root does not name')
        return self.of_weights(last.weights, strength)

    def put(self, elements, strength):
        """Puts a new node behind the last element, which becomes that of the node."""
        node = self.of_elements(elements, strength)
        last = elements[-1]
        if strength == PRIMARY and not last.node and not last.weights[0]:
            raise NotTold('a primary difference behind what has none')
        if strength == QUATERNARY and not last.node and not any(last.weights):
            raise NotTold('a quaternary difference behind what is ignorable')
        for level in (SECONDARY, TERTIARY):
            if strength >= level:
                node = self.common(node, level)
        while node.following and node.following.strength > strength:
            node = node.following
        made = node.link(Node(strength, None, True))
        elements[-1] = Element(made, min(strength, last.strength))

    def put_before(self, elements, strength):
        """Exchanges the last element by one right before it, to which [before N] resets."""
        node = self.of_elements(elements, strength).before(strength)
        last_strength = elements[-1].strength
        if node.strength == strength and node.is_tailored:
            node = node.previous
        elif strength == PRIMARY:
            if not node.weight or node.weight <= self.root.primaries[0]:
                raise NotTold('a place before what is ignorable, or before all')
            node = self.of_primary(self.root.primary_before(node.weight))
            while node.following:
                node = node.following
        else:
            node = self.before_weak(node, strength)
        elements[-1] = Element(node, last_strength)

    def before_weak(self, node, strength):
        """The node behind which what stands before a node of this strength goes."""
        node = self.common(node, SECONDARY)
        if strength >= TERTIARY:
            node = self.common(node, TERTIARY)
        weight = self.weight_before(node, strength)
        if node.strength != strength:
            return self.of_weak(node, weight, strength)
        if not node.weight:
            raise NotTold('a place before what is ignorable')
        other = node.previous
        while other.strength > strength or other.strength == strength and other.is_tailored:
            other = other.previous
        before = COMMON if other.strength < strength else other.weight
        if before == weight:
            return node.previous
        return node.previous.link(Node(strength, weight))

    def weight_before(self, node, level):
        """The weight of the root that stands before that of a node on a level; BEFORE under a node that was put in."""
        tertiary = node.weight if node.strength == TERTIARY else COMMON
        node = node.before(SECONDARY)
        if node.is_tailored:
            return BEFORE
        secondary = node.weight if node.strength == SECONDARY else COMMON
        node = node.before(PRIMARY)
        if node.is_tailored:
            return BEFORE
        return self.root.weight_before(level, node.weight, secondary, tertiary)
