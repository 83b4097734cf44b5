#!/usr/bin/env python3
"""tools/cases.py input|expected: prints the lines that the program `cases` puts to the call for validating, or their answers (tools/cases.sh
has both written). The answers are stated in tools/validating, from document 01 ("From boxes and vectors to a tape", "Questions put to a tape"): a case
says yes or the number of the question, and HERE stands among its commands where the refusal points. Nothing there reads a tape."""
import sys

from validating import every_command, order, question2, question3, question4
from validating.cases import answers, lines, lines_that_are_none, yes

PARTS = [
    question2.commands_by_places, question2.unknown_codes, question2.cut_off, question2.atoms_whole, question2.behind_an_item, question2.counts,
    question3.operands_out, question3.operands_in, question3.zeros_that_are_no_atoms, question3.repeated_atoms, question3.nesting, question3.many_atoms,
    question4.texts, order.of_one_command, order.of_two_commands, order.outside_first, order.work, every_command.prefixes, every_command.spans,
    lines_that_are_none,
]

if sys.argv[1:] not in (["input"], ["expected"]):
    sys.exit("usage: tools/cases.py input|expected")
yes("empty")                     # "The empty tape is a grammar without items"
for part in PARTS:
    part()
print("\n".join(lines if sys.argv[1] == "input" else answers))
