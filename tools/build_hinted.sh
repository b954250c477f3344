#!/usr/bin/env bash
# Builds an executable of a program without any proof that takes nearly the instructions of the proved one:
#     tools/build_hinted.sh CRATE OUT
# tools/build_unproved.sh makes it, but without the checks that a proof makes needless, with the hints of the sources on
# inlining (tools/inline_hints.py), and compiled as the kit compiles what is proved. It is for counting alone: where a
# check would fail, what it does isn't defined, so answers are tried with tools/build_unproved.sh.
HINTED=1 exec "$(dirname "$(readlink -f "${BASH_SOURCE[0]}")")/build_unproved.sh" "$@"
