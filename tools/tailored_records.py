"""Follows the rules of a collation over the records of the root, and gives the records of the tailoring and its settings.

What the rules of a records file refuse (docs/RECORDS.md), and what has no place or no room, is left out by itself and kept
with the reason; all else keeps its place.
"""
from cldr_rules import Relation, Reset, Setting
from root_data import INTERNAL, JAMO, SPECIAL, SURROGATES
from tailored_nodes import IDENTICAL, PRIMARY, SECONDARY, TERTIARY, Element, Nodes, NotTold, RootWeights
from tailored_weights import Assigning

LONGEST = 8
# what stands for the weights of characters that the root does not name
IMPLICIT = (0xFE,)
LAST_TERTIARY = (0x3D, 2)
# settings of CLDR, and what a records file says for them; '' where it says so anyway
WORDS = {'backwards': {'2': 'backward on'}, 'caseFirst': {'upper': 'casefirst upper', 'lower': 'casefirst lower', 'off': ''},
         'alternate': {'shifted': 'alternate shifted', 'non-ignorable': ''}, 'normalization': {'on': '', 'off': ''},
         'strength': {'3': ''}, 'caseLevel': {'off': ''}, 'numericOrdering': {'off': ''}, 'hiraganaQ': {'off': ''},
         'maxVariable': {'space': 'maxvariable space', 'punct': '', 'symbol': 'maxvariable symbol', 'currency': 'maxvariable currency'}}


class Base:
    """What the tailorings of a root share."""

    def __init__(self, root):
        self.characters, self.plan, self.root = root.characters, root.plan, root
        self.ideographs = list(root.ranges())
        self.compressible = set(root.plan.compressed())
        weights = {(part.primary, part.secondary, part.tertiary) for record in root.records.values() for part in record}
        self.weights = RootWeights(weights, root.plan.boundaries())
        self.taken = {SECONDARY: {s[0] for _, s, _ in weights if len(s) == 1}, TERTIARY: {t[0] for _, _, t in weights if len(t) == 1}}
        self.records = Records(self)
        for (prefix, text), record in root.records.items():
            self.records.put(prefix, text, [Element(weights=part[:2] + (part.tertiary,), case=part.case) for part in record])
        for primary, text, _ in root.fractional.starts:
            boundary = self.plan.boundary(primary, self.plan.names[primary, text])
            if boundary:
                self.records.put((), text, [Element(weights=(boundary, (5,), (5,)))])

    def ideograph(self, character):
        """The weight of a Han character of a range."""
        for part, (lead, second, third) in self.ideographs:
            if part[0] <= character <= part[-1]:
                place = (second - 2) * 254 + third - 2 + character - part[0]
                return lead, 2 + place // 254, 2 + place % 254
        return None


class Records:
    """Records by what their texts begin with."""

    def __init__(self, base):
        self.base = base
        self.texts, self.prefixed = {}, {}

    def put(self, prefix, text, elements):
        if prefix:
            self.prefixed.setdefault(text[0], {})[prefix] = elements
        else:
            self.texts.setdefault(text[0], {})[text] = elements

    def drop(self, text):
        del self.texts[text[0]][text]

    def over(self):
        """The same records, to which others may be added."""
        made = Records(self.base)
        made.texts = {first: dict(found) for first, found in self.texts.items()}
        made.prefixed = {first: dict(found) for first, found in self.prefixed.items()}
        return made

    def get(self, prefix, text):
        if prefix:
            return self.prefixed.get(text[0], {}).get(prefix)
        return self.texts.get(text[0], {}).get(text)

    def read(self, parts):
        """The elements of decomposed characters, as docs/RECORDS.md says they are read."""
        return [element for _, elements in self.matches(parts) for element in elements]

    def matches(self, parts):
        """The matches from the left: at which place each begins, and its elements."""
        joined = set()
        for place in range(len(parts)):
            if place not in joined:
                yield place, self.read_at(parts, place, joined)

    def read_at(self, parts, place, joined):
        """The elements of the match at a place; the other places that it takes are joined to it."""
        character = parts[place]
        prefixes = self.prefixed.get(character, {})
        behind = [prefix for prefix in prefixes if tuple(parts[max(place - len(prefix), 0):place]) == prefix]
        if behind:
            return prefixes[max(behind, key=len)]
        texts = self.texts.get(character, {})
        left = [other for other in range(place, len(parts)) if other not in joined]
        sizes = range(min(len(left), LONGEST), 1, -1)
        size = next((size for size in sizes if tuple(parts[other] for other in left[:size]) in texts), 1)
        joined.update(left[:size])
        match = tuple(parts[other] for other in left[:size])
        if texts:
            match = self.with_marks(parts, left[size:], match, texts, joined)
        return texts[match] if match in texts else self.own(character)

    def with_marks(self, parts, left, match, texts, joined):
        """The text that a match becomes by marks that follow and join it."""
        classes, last = self.base.characters.classes, 0
        for place in left:
            number = classes.get(parts[place], 0)
            if not number:
                break
            if number > last and match + (parts[place],) in texts:
                match += (parts[place],)
                joined.add(place)
            else:
                last = max(last, number)
        return match

    def own(self, character):
        """The element of a character that no record has."""
        primary = self.base.ideograph(character) or IMPLICIT + (character >> 16, character >> 8 & 0xFF, character & 0xFF)
        return [Element(weights=(primary, (5,), (5,)))]


class Tailoring:
    """What the rules of a collation make of the root."""

    def __init__(self, base, said):
        self.base, self.characters = base, base.characters
        self.left, self.settings, self.without = {}, {}, []
        self.reorder = None
        self.records, self.tailored = base.records.over(), {}
        self.nodes = Nodes(base.weights)
        for rule in said:
            self.follow(rule)
        self.assign()
        self.made = {key: self.finished(key, elements) for key, elements in self.tailored.items()}
        self.made = {key: elements for key, elements in self.made.items() if elements is not None}
        self.keep_rules()

    def leave_out(self, what, why):
        """Notes a key, or the words of a setting, that a file cannot have."""
        self.left.setdefault(why, []).append(what)

    def follow(self, rule):
        """Follows a rule; what it cannot be followed for is left out."""
        if isinstance(rule, Reset):
            self.is_lost = None
            try:
                self.elements = self.reset(rule)
            except NotTold as error:
                self.is_lost = str(error)
        elif isinstance(rule, Relation):
            try:
                if self.is_lost:
                    raise NotTold(self.is_lost)
                self.relate(rule)
            except NotTold as error:
                self.leave_out((self.parts(rule.prefix), self.parts(rule.text)), str(error))
        elif isinstance(rule, Setting):
            self.set(rule)
        else:
            self.suppress(rule.characters)

    def set(self, rule):
        """Takes a setting."""
        if rule.name == 'reorder':
            self.reorder = rule.value.split()
            return
        word = WORDS[rule.name].get(rule.value)
        if word is None:
            self.leave_out(f'[{rule.name} {rule.value}]', 'a setting that a file cannot tell')
        else:
            self.settings[rule.name] = word

    def suppress(self, characters):
        """Leaves out the longer texts of the root that begin with one of these characters."""
        for character in sorted(characters):
            for text in sorted(self.records.texts.get(character, {})):
                if len(text) > 1 and ((), text) not in self.tailored:
                    self.records.drop(text)
                    self.without.append(text)

    def parts(self, text):
        return self.characters.decomposed(tuple(map(ord, text)))

    # ---- resets and relations

    def reset(self, rule):
        """The elements of the text or the position that a reset names."""
        if rule.position:
            elements = [self.position(rule.position)]
        else:
            elements = list(self.records.read(self.parts(rule.text)))
        if rule.before:
            self.nodes.put_before(elements, rule.before)
        return elements

    def relate(self, rule):
        """Puts a text behind what was last."""
        prefix, text = self.parts(rule.prefix), self.parts(rule.text)
        if rule.strength != IDENTICAL:
            self.nodes.put(self.elements, rule.strength)
        self.set_cases(text)
        elements = list(self.elements)
        if rule.extension:
            elements += self.records.read(self.parts(rule.extension))
        self.records.put(prefix, text, elements)
        self.tailored[prefix, text] = elements

    def set_cases(self, text):
        """Gives the elements the cases of the characters of the text in the root."""
        count = sum(element.strength == PRIMARY for element in self.elements)
        cases = [element.case for element in self.base.records.read(text) if element.weights[0]]
        given = cases[:count]
        if count and len(cases) > count and any(case != cases[count - 1] for case in cases[count:]):
            given[-1] = 1
        given += [0] * (count - len(given))
        made = []
        for element in self.elements:
            case = given.pop(0) if element.strength == PRIMARY else 2 if element.strength == TERTIARY else 0
            made.append(Element(element.node, element.strength, element.weights, case))
        self.elements = made

    def position(self, words):
        """The element of [first ..] and [last ..]."""
        end, kind = words.split(' ', 1)
        weights, strength = self.weights_of_position(end, kind)
        if not any(weights):
            return Element(weights=weights)
        node = self.nodes.of_weights(weights, strength)
        if end == 'last':
            return self.last_behind(node, weights, strength)
        if kind in ('variable', 'regular') and not any(node.has_before.values()):
            if node.following:
                return Element(node.following, strength)
            weights = (self.base.weights.after(weights[0]), (5,), (5,))
            node = self.nodes.of_weights(weights, strength)
        if kind == 'secondary ignorable' or kind == 'primary ignorable' and not any(node.has_before.values()):
            if node.following and node.following.is_tailored and node.following.strength == strength:
                return Element(node.following, strength)
        return self.first_before(node, weights)

    @staticmethod
    def first_before(node, weights):
        """The element of the first node that was put before one of the root, or of the root."""
        if not any(node.has_before.values()):
            return Element(weights=weights)
        strength = Element(weights=weights).strength
        for level in (SECONDARY, TERTIARY):
            if node.has_before[level]:
                node = node.following.following
        return Element(node, strength)

    @staticmethod
    def last_behind(node, weights, strength):
        """The element of the last node behind one of the root that is not stronger."""
        while node.following and node.following.strength >= strength:
            node = node.following
        return Element(node, strength) if node.is_tailored else Element(weights=weights)

    def weights_of_position(self, end, kind):
        """Weights of the root, and the strength at which others stand behind them."""
        plan, root = self.base.plan, self.base.weights
        common = ((5,), (5,))
        if kind == 'tertiary ignorable':
            return ((), (), ()), IDENTICAL
        if kind == 'secondary ignorable':
            return ((), (), LAST_TERTIARY), TERTIARY
        if kind == 'primary ignorable':
            weight = (min if end == 'first' else max)(root.secondaries[()] - {()})
            return ((), weight, (5,)), SECONDARY
        symbol = (plan.leads_of('SYMBOL').first, 2, 2)
        first = {'first variable': (plan.leads_of('SPACE').first, 2, 2), 'last variable': root.primary_before(symbol),
                 'first regular': symbol, 'last regular': (plan.leads_of('Hani').first, 2, 2), 'first implicit': (plan.han, 2, 2)}
        if f'{end} {kind}' not in first:
            raise NotTold('behind what is built in')
        return (first[f'{end} {kind}'], *common), PRIMARY

    # ---- the records at the end

    def assign(self):
        """Finds the weights of all nodes that were put in."""
        assigning = Assigning(self.base.weights, self.base.compressible, self.base.taken)
        for head in self.nodes.heads.values():
            assigning.assign(head)

    def finished(self, key, elements):
        """Weights, case and quaternary of elements; None where one has none."""
        made = []
        for element in elements:
            weights = element.weights + (0,) if element.weights else element.node.element
            if element.node and not element.node.is_tailored:
                weights = self.weights_of_node(element.node) + (0,)
            if weights is None:
                self.leave_out(key, 'no room between the weights of the root')
                return None
            if any(weights[:3]):
                made.append((*weights[:3], element.case, weights[3]))
        return tuple(made)

    @staticmethod
    def weights_of_node(node):
        """The weights that a node of the root stands for."""
        found = [(), (5,), (5,)]
        while node.strength > PRIMARY:
            if node.strength <= TERTIARY and found[node.strength - 1] == (5,):
                found[node.strength - 1] = node.weight
            node = node.before(node.strength - 1)
        found[0] = node.weight
        return tuple(found)

    def keep_rules(self):
        """Leaves out records that a file may not have; adds the shorter texts that longer ones with a mark ask for."""
        for key in list(self.made):
            why = self.refusal(key, self.made[key])
            if why:
                self.leave_out(key, why)
                del self.made[key]
        for prefix, text in sorted(self.made, key=lambda key: (len(key[1]), key)):
            if not self.has_shorter(text):
                self.leave_out((prefix, text), 'a longer text with a mark (V9)')
                del self.made[prefix, text]

    def refusal(self, key, elements):
        """Why a file may not have a record; None where it may."""
        prefix, text = key
        characters, is_mark = self.characters, self.characters.classes.get
        marks = [bool(is_mark(character)) for character in text]
        if INTERNAL & set(prefix + text):
            return 'U+FDD0 or U+FDD1, which no text has'
        if (SPECIAL | set(SURROGATES)) & set(prefix + text):
            return 'a character that is built in'
        if marks != sorted(marks):
            return 'a letter behind a mark (V8)'
        if prefix and (len(text) > 1 or any(map(is_mark, prefix + text)) or self.lone(text) is None):
            return 'a prefix with a mark, or of more than a letter (V10)'
        if (prefix or len(text) > 1) and (text[0] in characters.digits or prefix and set(prefix) & set(characters.digits)):
            return 'a longer text that begins with a digit (V11)'
        if any(character in JAMO for character in prefix + text) and (prefix or len(text) > 1 or len(elements) != 1):
            return 'jamo in a longer text, or with more than an element (V12)'
        if len(text) > LONGEST or len(prefix) > 3 or len(elements) > LONGEST:
            return 'more characters or elements than a file tells'
        if any(part[0] and part[0][0] in self.base.plan.ranges or part[0][:1] == IMPLICIT for part in elements):
            return 'elements of a Han character of a range, or of a character that the root does not name'
        if any(part[4] > 3 for part in elements):
            return 'more than three quaternary differences'
        return None

    def lone(self, text):
        """The elements of a text without prefix, of the tailoring or the root."""
        return self.made.get(((), text), self.base.records.get((), text))

    def has_shorter(self, text):
        """Whether the text without its last mark, if it has one and is long, is recorded, or could be by what it is read as."""
        if len(text) < 3 or not self.characters.classes.get(text[-1]) or self.lone(text[:-1]) is not None:
            return True
        return self.add(text[:-1]) and all([self.add(longer) for longer in self.longer(text[:-1])])

    def add(self, text):
        """Records a text by what it is read as, if a file may have it."""
        if self.lone(text) is not None:
            return True
        elements = self.finished(((), text), self.records.read(text))
        if elements is None or self.refusal(((), text), elements):
            return False
        self.made[(), text] = elements
        return self.has_shorter(text)

    def longer(self, text):
        """The texts that longer ones, which begin inside of a text, make with what is before them: else it would part them."""
        for start in range(1, len(text)):
            for other in self.records.texts.get(text[start], {}):
                inside = len(text) - start
                if len(other) > inside and other[:inside] == text[start:] and self.lone(other) is not None:
                    *_, (last, _) = self.records.matches(text[:start] + other)
                    if last == start:
                        yield text[:start] + other
