#!/usr/bin/env python3
"""Prints how many bytes of code each file named has, an archive or an object: the sizes of its executable sections, from the headers."""
import os
import sys

import elf


def main(paths):
    print('\nBytes of code, all ten calls\n')
    for path in paths:
        with open(path, 'rb') as file:
            print(f'{os.path.basename(path):<20}{sum(map(elf.code_bytes, elf.members(file.read()))):>7}')


if __name__ == '__main__':
    main(sys.argv[1:])
