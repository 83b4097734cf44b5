"""How a check of the files ends: a line for each finding, its last line, and exit status 1 if there is any."""
import os
import sys

ROOT = os.path.dirname(os.path.dirname(os.path.abspath(__file__)))


def end(found, last):
    for line in found:
        print(line)
    print(last)
    sys.exit(1 if found else 0)
