"""Decomposed and composed lists, and the mapper, over Records."""


def sort_marks(r, chars):
    """Each maximal run of marks sorted by class, stably."""
    out, run = [], []
    for c in chars:
        if r.cls(c):
            run.append(c)
        else:
            if run:
                run.sort(key=r.cls)
                out += run
                run = []
            out.append(c)
    run.sort(key=r.cls)
    return out + run


def decomposed(r, chars, compat=False):
    """The decomposed list (NFD; with compat NFKD)."""
    full = r.kfull if compat else r.full
    return sort_marks(r, [x for c in chars for x in full(c)])


def compose_list(r, chars):
    """The composed list of a decomposed one."""
    out, at = [], None
    for c in chars:
        k = r.cls(c)
        if at is not None and all(r.cls(m) < k for m in out[at + 1:]):
            z = r.compose_pair(out[at], c)
            if z is not None:
                out[at] = z
                continue
        out.append(c)
        if k == 0:
            at = len(out) - 1
    return out


def composed(r, chars, compat=False):
    """The composed list (NFC; with compat NFKC)."""
    return compose_list(r, decomposed(r, chars, compat))


def form(r, chars, name):
    return {'NFD': lambda: decomposed(r, chars), 'NFC': lambda: composed(r, chars),
            'NFKD': lambda: decomposed(r, chars, True),
            'NFKC': lambda: composed(r, chars, True)}[name]()


def uts46_map(r, table, chars):
    """`map_normalize`; table(c): None valid, a list, 'ignored' or 'disallowed'."""
    out = []
    for c in chars:
        t = table(c)
        out += [c] if t is None else [] if t == 'ignored' else [0xFFFD] if t == 'disallowed' else list(t)
    return composed(r, out)


def uts46_validate(r, table, chars):
    """`normalize_validate`."""
    out = []
    for c in chars:
        t = table(c)
        out += [c] if t is None else [0xFFFD] if t in ('ignored', 'disallowed') else list(t)
    return composed(r, out)
