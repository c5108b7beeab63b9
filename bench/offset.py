#!/usr/bin/env python3
"""Prints how many bytes behind one function of a program another begins, one that C cannot name: FILE FUNCTION OTHER."""
import sys

import elf


def main(path, function, other):
    with open(path, 'rb') as file:
        places = elf.places(file.read())
    for name in (function, other):
        if name not in places:
            sys.exit(f'{path} has no symbol {name}')
    print(places[other] - places[function])


if __name__ == '__main__':
    main(*sys.argv[1:])
