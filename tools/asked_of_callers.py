#!/usr/bin/env python3
"""What the public calls of the libraries ask of their callers, from the sources: asked_of_callers.py [--check]

Writes the list below the heading "What public calls ask" of docs/PROMISES.md, up to the line that ends it: each `requires` of a
function or method that another crate can call. That is one that is `pub`, and stands in a module that is `pub` up to the root of
its crate or is named by a `pub use` of such a module; or is a method of a type that is seen so, or that a call seen so takes or
gives; or of a trait that is seen so. With --check nothing is written, and the status is 1 where the page says otherwise.
"""
import collections
import os
import re
import sys
import textwrap

ROOT = os.path.dirname(os.path.dirname(os.path.realpath(__file__)))
PAGE = os.path.join(ROOT, 'docs/PROMISES.md')
BEGIN, END = '<!-- by tools/asked_of_callers.py -->', '<!-- up to here -->'
ITEM = re.compile(r'^(pub )?(?:const |unsafe )?(fn|struct|enum|trait|type|const|union) (\w+)', re.M)
METHOD = re.compile(r'^    (pub )?(?:const |unsafe )?fn (\w+)', re.M)

# A public call: the crate, the module's path in it, the type or trait if it is a method, its name, and what stands before its body.
Call = collections.namedtuple('Call', 'crate module owner name head')


def libraries():
    """The libraries of the repository, in the order of crates.txt, without those that test or measure."""
    with open(os.path.join(ROOT, 'crates.txt'), encoding='utf-8') as lines:
        names = [line.split(':')[0] for line in lines if ':' in line and not line.startswith('#')]
    return [name for name in names if not re.match('tests_|samples_|speed_|examples_', name)
            and os.path.exists(os.path.join(ROOT, 'crates', name, 'src/lib.rt'))]


def without_comments(text):
    """A source without its comments; the lines stay."""
    return re.sub(r'^\s*//.*$', '', text, flags=re.M)


def modules_of(crate):
    """The sources of a crate by the paths of their modules, and which modules are `pub` in their parents."""
    folder, sources, public = os.path.join(ROOT, 'crates', crate, 'src'), {}, {()}

    def read(path, file):
        with open(os.path.join(folder, file), encoding='utf-8') as source:
            sources[path] = text = without_comments(source.read())
        for visibility, name in re.findall(r'^(pub )?(?:pub\([^)]*\) )?mod (\w+);', text, re.M):
            if visibility:
                public.add((*path, name))
            read((*path, name), '/'.join([*path, name]) + '.rt')
    read((), 'lib.rt')
    return sources, public


def head_of(text, start, indent):
    """What stands between the name of a function and its body, or its end where it has none."""
    end = re.compile(rf'^{indent}\{{|\{{$|;$', re.M)
    place = start
    while True:
        found = end.search(text, place)
        head = text[start:found.start()]
        # a clause may itself have an open brace at the end of a line
        if head.count('{') == head.count('}'):
            return head
        place = found.end()


def clauses(head):
    """The names and the words of the clauses that a function asks its caller for."""
    for found in re.finditer(r'\brequires (?:(\w+) )?\{', head):
        depth, place = 1, found.end()
        while depth:
            depth += {'{': 1, '}': -1}.get(head[place], 0)
            place += 1
        yield found.group(1), ' '.join(head[found.end():place - 1].split())


def blocks(text):
    """The `impl` blocks and traits of a source: whether it is a trait that is `pub`, the name, whether it is a trait's impl, and
    the text."""
    for found in re.finditer(r'^(pub )?(impl|trait)\b([^\n{]*(?:\n[^\n{]*)*?)\{\n(.*?)^\}', text, re.M | re.S):
        public, kind, title, body = found.groups()
        title = re.sub(r'<[^<>]*(?:<[^<>]*(?:<[^<>]*>[^<>]*)*>[^<>]*)*>', '', title)
        of_trait = ' for ' in title
        words = re.findall(r'\w+', title.split(' for ')[-1].split('where')[0])
        if words:
            yield bool(public) and kind == 'trait', words[0], of_trait, kind, body


def used(text):
    """The paths that the `pub use` lines of a source name."""
    for line in re.findall(r'^pub use ([^;]+);', text, re.M):
        line = ' '.join(line.split())
        base, _, group = line.partition('{')
        for name in (group.rstrip('} ').split(',') if group else ['']):
            path = (base + name.strip()).split(' as ')[0].strip()
            if path:
                yield tuple(path.split('::'))


def seen_items(sources, public):
    """The modules that can be named from outside a crate, and the items."""
    modules = {path for path in sources if all(path[:i] in public for i in range(len(path) + 1))}
    items = {(path, name) for path in modules for kind, _, name in ITEM.findall(sources[path]) if kind}
    for path in sorted(modules):
        for named in used(sources[path]):
            target = named[1:] if named[0] == 'crate' else named[1:] if named[0] == 'self' else (*path, *named)
            if named[0] == 'super':
                target = (*path[:-1], *named[1:])
            items.add((target[:-1], target[-1]))
    # an item that is passed on once more
    changed = True
    while changed:
        changed = False
        for path, name in list(items):
            for named in used(sources.get(path, '')):
                target = (*path, *named)
                if named[-1] == name and (target[:-1], name) not in items:
                    items.add((target[:-1], name))
                    changed = True
    return items


def calls_of(crate):
    """The calls of a crate that another can make, with all that they say before their bodies."""
    sources, public = modules_of(crate)
    items = seen_items(sources, public)
    names, taken, calls = {name for _, name in items}, set(), []
    types = {name for text in sources.values() for kind, what, name in ITEM.findall(text) if kind and what in ('struct', 'enum')}
    for path, text in sources.items():
        for found in ITEM.finditer(text):
            if found.group(1) and found.group(2) == 'fn' and (path, found.group(3)) in items:
                calls.append(Call(crate, path, None, found.group(3), head_of(text, found.end(), '')))
    while True:
        new = [call for path, text in sources.items() for call in methods(crate, path, text, names)
               if (call.owner, call.name, path) not in taken]
        taken |= {(call.owner, call.name, call.module) for call in new}
        calls += new
        more = {word for call in calls for word in re.findall(r'\w+', re.split(r'\b(?:requires|ensures)\b', call.head)[0])} & types
        if not new and more <= names:
            return calls
        names |= more


def methods(crate, path, text, names):
    """The methods in a source of the types and traits of these names that another crate can call."""
    for public_trait, owner, of_trait, kind, body in blocks(text):
        if owner not in names or kind == 'trait' and not public_trait or of_trait:
            continue
        for found in METHOD.finditer(body):
            if found.group(1) or kind == 'trait':
                yield Call(crate, path, owner, found.group(2), head_of(body, found.end(), '    '))


def asked_by(call):
    """What a call asks, by the names of its clauses."""
    return ', '.join(f'{name} `{words}`' if name else f'`{words}`' for name, words in clauses(call.head))


def name_of(call):
    """The name of a call with the type or the module that it stands in."""
    place = call.owner or '::'.join(call.module[-1:])
    return f'`{place}::{call.name}`' if place else f'`{call.name}`'


def shown(calls, asked):
    """The lines of calls that ask the same."""
    return textwrap.wrap(f'{", ".join(map(name_of, calls))}: {asked}', 118, initial_indent='  - ', subsequent_indent='    ',
                         break_long_words=False, break_on_hyphens=False)


def listed():
    """The list, as the page has it: calls of a crate that ask the same stand together, where the first of them stands."""
    lines = []
    for crate in libraries():
        asking = sorted({(call.owner or '', call.module, call.name): call for call in calls_of(crate)
                         if any(clauses(call.head))}.items())
        alike = {}
        for _, call in asking:
            alike.setdefault(asked_by(call), []).append(call)
        if asking:
            lines += [f'- `{crate}`', *(line for asked, calls in alike.items() for line in shown(calls, asked))]
    return '\n'.join(lines)


def main(words):
    if words not in ([], ['--check']):
        sys.stderr.write(__doc__)
        return 2
    with open(PAGE, encoding='utf-8') as page:
        text = page.read()
    before, _, rest = text.partition(BEGIN + '\n')
    _, _, behind = rest.partition(END + '\n')
    made = f'{before}{BEGIN}\n{listed()}\n{END}\n{behind}'
    if words:
        if made != text:
            print('docs/PROMISES.md: "What public calls ask" is not what tools/asked_of_callers.py writes')
        return made != text
    with open(PAGE, 'w', encoding='utf-8') as page:
        page.write(made)
    return 0


if __name__ == '__main__':
    sys.exit(main(sys.argv[1:]))
