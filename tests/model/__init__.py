"""The bus, its units, its stations and the script language a second time, in plain Python, written from the rules alone.

It is read beside the program and never from it: where the program keeps tables, the model looks back over what happened.
Read in this order: `frames` (identifiers, layouts, packets), `memory` (fault memories and what messages say of them),
`unit`, `station`, `garage` (the bus with its seats), `script` (the words of a script), `cases` (what a run must reach).

Beside these the subcommands over lines of a log: `log_line` (what a line is), `words` (what a frame says), `decode`, `heard` (what one who reads
knows of a bus), `listener` (one who takes no part there), `watch`, `log_cases` (what a run must reach).
"""
