"""The independent reading: everything under one name."""
from decode import decode_latin1, decode_utf16, decode_utf8, encode_utf8  # noqa: F401
from records import Fault, Records, read  # noqa: F401
from norm import composed, decomposed, form, uts46_map, uts46_validate  # noqa: F401
from collate import (LEVELS, Options, compare, condition_n, elements, elements_of_list,  # noqa: F401
                     key, levels, own_elements, resolve, sort_value)
from index import Index, choice, read_options, run, run_bytes, serve  # noqa: F401
