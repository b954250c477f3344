#!/usr/bin/env python3
"""Shows circles of files and folders of `src` by their `use` (not by calls of methods); --graph also what each uses:

    tools/module_circles.py [--graph] CRATE..
"""
import pathlib
import re
import sys

CRATES = pathlib.Path(__file__).resolve().parent.parent / "crates"
USE = re.compile(r"^(?:pub(?:\([^)]*\))? )?use ([^;]+);", re.M)  # (not `ghost use`)


def paths(text):
    """The paths that a `use` names, without its braces."""
    head, brace, rest = text.partition("{")
    if not brace:
        return [text.split(" as ")[0].strip().split("::")]
    parts = [part for part in rest.rpartition("}")[0].split(",") if part.strip()]
    return [[name for name in head.strip().split("::") if name] + path for part in parts for path in paths(part)]


def graph(crate):
    """The modules that each module of a crate uses."""
    root = CRATES / crate / "src"
    texts = {file.relative_to(root).with_suffix("").parts: file.read_text() for file in sorted(root.rglob("*.rt"))}
    edges = {module: set() for module in texts}
    for module, text in texts.items():
        for path in (path for use in USE.findall(text) for path in paths(use)):
            full = () if path[0] == "crate" else module
            for name in path[path[0] in ("crate", "self") :]:
                full = full[:-1] if name == "super" else full + (name,)
            used = next((full[:n] for n in range(len(full), 0, -1) if full[:n] in texts), module)
            edges[module] |= {used} - {module}
    return {"/".join(module): {"/".join(other) for other in used} for module, used in edges.items()}


def circles(edges):
    """Groups of which each reaches each."""
    reached = {start: set(used) for start, used in edges.items()}
    for middle in edges:
        for start in edges:
            reached[start] |= reached[middle] if middle in reached[start] else set()
    return {frozenset(b for b in reached[a] if a in reached[b]) for a in edges if a in reached[a]}


count = 0
for crate in sys.argv[1:]:
    if crate != "--graph":
        files = graph(crate)
        top = {module: module.split("/")[0] for module in files}
        folders = {a: {top[c] for b in files if top[b] == a for c in files[b]} - {a} for a in top.values()}
        for module, used in files.items() if "--graph" in sys.argv else ():
            print(f"{module}:", *sorted(used))
        for kind, edges in (("files", files), ("folders", folders)):
            for circle in sorted(map(sorted, circles(edges))):
                print(f"{crate}: circle of {len(circle)} {kind}:", *circle)
                count += 1
print(f"circles={count}" if len(sys.argv) > 1 else __doc__)
sys.exit(1 if count else 0)
