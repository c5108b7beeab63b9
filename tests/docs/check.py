#!/usr/bin/env python3
"""Holds the header and the documents to what is in the tree.

- include/gorsepetal.h declares the exported functions of crates/gorsepetal_c, and no others, and each of these only calls the function of
  crates/gorsepetal that has its name and its contract; its constants are those of the crates and of their definitions, and no others; its
  version is the newest of docs/CHANGES.md. Its manual names nothing of the library that it does not declare. In it the tables of numbers,
  of fields, of the state, of the window, of a decision and of the loops, each call's list of checks, what is said of feed and the formulas
  of the rules have the source's figures and order, the limits those of the transform, the worked record follows from its own formulas, and
  the worked decision, the tests at the panel and what is said of balanced faults, of the quadrilateral ground loops and of the slope at
  which a phase changes from the independent program. The bytes of an event file's record and of its reader are the source's; what ends a
  reading, and what is noticed of a file and what is not, the independent program shows.
- What docs/RULES.md and the manual say that an answer leaves of the state, of a reader and of the lent room is what the independent program
  leaves.
- In README.md, docs/ and tests/independent/README.md each path in backticks is there (`*` stands for any name), and each link leads to a
  file and a heading that are. In README.md and docs/, in `name` in `path`, or `a`, `b` in `path`, each name is declared in that file; below
  a paragraph "Files:" each name is declared in one of its files, and each of these declares a name there. The commands that README.md shows
  are there, and what it shows as printed is an example's. Code, laws and edits that a page quotes stand so in the crates. What README.md and
  the newest version in docs/CHANGES.md say of the state and of the header's names is so, and how many decisions are proved examples.
- docs/CLAIMS.md: its table names each promise of the one statement in crates/promises, below the file that proves it, and the one statement
  has every statement of the crates of claims; the counts of assumed C functions are those that the checks of the crates
  gave, which must all have been proved here.
- docs/WRONG-RELAYS.md: it names each must-fail edit below its crate, in the order of the layers, and no other.
- docs/HAND-CHECKS.md: its sums come out; in its root each call follows from the next; its example of feed, its event files, its decisions,
  its slopes at which a phase changes, its quadrilaterals, and its tables of several faults at once, say what the independent program does.
- docs/RULES.md: its rules are numbered, and each says by which request it stands and names definitions, which have its figures, or for a
  rule of ours a section of the manual; its tables and drawings say what the source says; its examples follow from their formulas.
- crates.txt names what each crate uses, and nothing more. One function calls itself, and the header says so.
- In tests/independent/ imports go one way, from what drives to the cases to the model, and its README.md has a line for each file.
- No crate, and not all of them together, takes more lines of proof for a line of code than docs/ARCHITECTURE.md allows.
"""
import sys

sys.dont_write_bytecode = True
import axioms  # noqa: E402
import balanced  # noqa: E402
import boundary  # noqa: E402
import documents  # noqa: E402
import events  # noqa: E402
import events_left  # noqa: E402
import hand_checks  # noqa: E402
import hand_events  # noqa: E402
import hand_quadrilaterals  # noqa: E402
import hand_slopes  # noqa: E402
import header  # noqa: E402
import layers  # noqa: E402
import left  # noqa: E402
import lines  # noqa: E402
import manual  # noqa: E402
import promises  # noqa: E402
import quadrilateral  # noqa: E402
import rules  # noqa: E402
import slopes  # noqa: E402
import worked  # noqa: E402
from tree import faults  # noqa: E402


def main():
    counts = {
        'functions': header.check_functions(),
        'exports': header.check_exports(),
        'constants': header.check_constants(),
        'macros': header.check_macros(),
        'lines of the header': manual.check_columns(),
        'names in the manual': manual.check_names(),
        'numbers in the manual': manual.check_number_table(),
        'parts of the state in the manual': manual.check_state(),
        'figures of feed in the manual': manual.check_feeding(),
        'fields in the manual': manual.check_settings_table(),
        'lines of the window in the manual': manual.check_window(),
        'parts of a decision in the manual': manual.check_decision_table(),
        'loops in the manual': manual.check_loops(),
        'formulas in the manual': manual.check_rules(),
        'limits in the manual': manual.check_limits(),
        'settings worked out in the manual': worked.check_example(),
        'steps of the decision worked out in the manual': worked.check_decision(),
        'tests at the panel': (worked.check_tests() + worked.check_pickup_test() + slopes.check_slope_test() + slopes.check_one_end()
                               + quadrilateral.check_panel()),
        'sentences on how far off the slope can be': slopes.check_manual(),
        'sentences on the quadrilateral ground loops': quadrilateral.check_manual() + quadrilateral.check_version(),
        'figures of the zones under load': balanced.check_load(),
        'sentences on lost voltages': balanced.check_fuses(),
        'faults close behind': balanced.check_behind(),
        'rows on what an answer leaves': left.check_left(),
        "parts of an event file's record in the manual": events.check_record(),
        'parts of a reader in the manual': events.check_reader(),
        'answers to a reading in the manual': events.check_answers(),
        'sentences on event files in the manual': events.check_damage(),
        'rows on what a call for event files leaves': events_left.check_left(),
        'sums in the hand checks': hand_checks.check_sums(),
        'calls of a root in the hand checks': hand_checks.check_root(),
        'steps of feed in the hand checks': hand_checks.check_fed(),
        'answers to several faults at once': hand_checks.check_orders(),
        'steps with event files in the hand checks': hand_events.check_events(),
        'slopes and decisions in the hand checks': hand_slopes.check_hand_slopes(),
        'quadrilaterals in the hand checks': hand_quadrilaterals.check_hand(),
        'rules': rules.check_rules(),
        'figures in the rules': rules.check_figures(),
        'fields in the rules': rules.check_settings(),
        'numbers in the rules': rules.check_answers(),
        'questions on the slope in the rules': slopes.check_asked(),
        'lines of samples in the rules': rules.check_measuring(),
        'bytes and loops in the rules': rules.check_decision(),
        'parts of records and readers in the rules': rules.check_events(),
        'lines of the program in the rules': rules.check_lines(),
        'paths': documents.check_paths(),
        'links': documents.check_links(),
        'names': documents.check_names(),
        'names of the library': documents.check_symbols(),
        'pages on the state': documents.check_relay(),
        'worked decisions': documents.check_worked(),
        'promises': promises.check_promises(),
        'must-fail edits': documents.check_edits(),
        'quotations': documents.check_quoted(),
        'commands': documents.check_commands(),
        'layers': layers.check_layers(),
        'functions that call themselves': layers.check_rings(),
        'files of the independent program': boundary.check_boundary(),
        "crates' axioms": axioms.check_axioms(),
        "crates' lines": lines.check_lines(),
    }
    faults.extend(f'no {kind} found to check' for kind, count in counts.items() if not count)
    if faults:
        sys.exit('\n'.join(dict.fromkeys(faults)))
    print('docs check: ' + ', '.join(f'{count} {kind}' for kind, count in counts.items()) + ' agree')


if __name__ == '__main__':
    main()
