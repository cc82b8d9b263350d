"""Writes the first half of the records of a bench input.

usage: half.py INPUT OUTPUT
"""
import sys

BODY = {1: 24, 2: 12, 3: 0, 4: 1, 5: 1, 6: 2, 9: 3}


def main():
    with open(sys.argv[1], "rb") as file:
        data = file.read()
    ends, at = [], 0
    while at < len(data) and data[at] in BODY:
        at += 1 + BODY[data[at]]
        ends.append(at)
    with open(sys.argv[2], "wb") as file:
        file.write(data[:ends[len(ends) // 2]])


main()
