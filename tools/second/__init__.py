"""A second engine: the whole program `mathlay` once more, in plain Python.

It was written from docs/FORMATS.md, docs/DEFINITIONS.md and the definitions that these name, without a look at the Rattle
code. It is made to be read, not to be fast: one module for each matter. Lengths are whole units of 1/1024 px unless a
docstring says otherwise, x grows to the right and y downward.

| module | matter |
|---|---|
| numbers, words | rounding and the stored range; words compared without case, white space, names |
| lengths | the lengths that attributes write |
| boxes | boxes: raised, joined |
| metrics, metrics_reading, metrics_print | the metrics file |
| json_text | JSON as the program reads and prints it |
| kinds, tree, tree_reading, tree_print | the tree and its file |
| dictionary | the operator dictionary |
| facts, forms | what an element is among operators; the form and the properties of an operator |
| styles | depth, style and font size |
| glyphs, shaping, targets | glyphs, variants and assemblies |
| tokens, operators, spaces | leaves |
| rows, padding, fraction, radicals, scripts, limits, multiscripts, tables, spans | the equations of elements with children |
| questions, equations, layout | what an element asks of its children, which equation it has, the layout of a tree |
| placing | where everything stands, and the lines of output |
| painting, pointing | the paint list and its SVG; what a pointer meets, and what is selected |
| edits, script, session, history | edits of a tree, the lines of a script, the replies, undo and redo |
| generator | the command `gen` |
| program | the command line and the table of endings |
"""
