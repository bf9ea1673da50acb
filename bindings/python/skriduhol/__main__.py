"""Reads a sheet from a file and prints the handout of a version, 1 if none is given, with the label count and the lists, or the refusal:

    python3 -m skriduhol FILE [VERSION]
"""

import sys

import skriduhol

def main(words: list[str]) -> int:
    if len(words) not in (1, 2) or not all(word.isdecimal() for word in words[1:]):
        print("usage: python3 -m skriduhol FILE [VERSION]", file=sys.stderr)
        return 2
    version = int(words[1]) if words[1:] else 1
    try:
        with open(words[0], "rb") as file:
            sheet = file.read(skriduhol.LONGEST_SHEET + 1)
        print(skriduhol.handout(sheet, version))
        print("labels:", skriduhol.label_count(sheet))
        print("atoms:", *(number for atom in skriduhol.atom_list(sheet) for number in atom))
        print("datatypes:", *skriduhol.handout_datatypes(sheet, version))
    except OSError as trouble:
        print(f"{words[0]}: {trouble.strerror}", file=sys.stderr)
        return 2
    except skriduhol.Refused as refused:
        print(refused)
        return 1
    return 0

if __name__ == "__main__":
    sys.exit(main(sys.argv[1:]))
