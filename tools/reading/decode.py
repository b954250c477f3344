"""Decoding: inputs to lists of characters (ints)."""


def decode_utf8(data):
    """Unicode's Table 3-7: one U+FFFD per maximal subpart."""
    out = []
    i, n = 0, len(data)
    while i < n:
        b = data[i]
        i += 1
        if b < 0x80:
            out.append(b)
            continue
        lo, hi = 0x80, 0xBF
        if 0xC2 <= b <= 0xDF:
            need, c = 1, b & 0x1F
        elif 0xE0 <= b <= 0xEF:
            need, c = 2, b & 0x0F
            if b == 0xE0:
                lo = 0xA0
            elif b == 0xED:
                hi = 0x9F
        elif 0xF0 <= b <= 0xF4:
            need, c = 3, b & 0x07
            if b == 0xF0:
                lo = 0x90
            elif b == 0xF4:
                hi = 0x8F
        else:
            out.append(0xFFFD)
            continue
        while need and i < n and lo <= data[i] <= hi:
            c = c << 6 | data[i] & 0x3F
            i += 1
            need -= 1
            lo, hi = 0x80, 0xBF
        out.append(c if not need else 0xFFFD)
    return out


def decode_utf16(units):
    """One U+FFFD per unpaired surrogate."""
    out = []
    i, n = 0, len(units)
    while i < n:
        u = units[i]
        i += 1
        if 0xD800 <= u <= 0xDBFF and i < n and 0xDC00 <= units[i] <= 0xDFFF:
            out.append(0x10000 + ((u - 0xD800) << 10) + units[i] - 0xDC00)
            i += 1
        elif 0xD800 <= u <= 0xDFFF:
            out.append(0xFFFD)
        else:
            out.append(u)
    return out


def decode_latin1(data):
    """Each byte to the character of its number."""
    return list(data)


def encode_utf8(chars):
    return ''.join(map(chr, chars)).encode('utf-8')
