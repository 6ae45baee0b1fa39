"""What docs/LANGUAGE.md and docs/CONDITIONS.md say of programs, their conditions and goals, worked out at one list of values after the
other.

`values` has sorts, operators and expressions, `programs` what a text is read as, `reading` its reader, `actions` permissions and what
actions do, `paths` bodies on their way, `conditions` the list of conditions, `goals` that of an outline's goals, and `weights` what they
weigh. `rows` counts and weighs the formulas of a text, and compares the rows of the tests; `reports` tries what the reports of cases
tell.

`stories` holds the rows of civl_explain against what they have to tell: `grammar` reads the grammar off the page and says which tokens
may stand behind others, `sources` knows where tokens stand, and `lines` how a line of a story is written and why a formula is false;
`refusals`, `misfits` (of scripts), `path_stories`, `action_stories`, `goal_stories` and `run_stories` have the lines, the last over
`plain`, the moves of plain programs, `assumptions` has what a condition assumes, and `marks` says which values may be others.
"""
