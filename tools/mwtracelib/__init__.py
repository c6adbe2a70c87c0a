"""What mwtrace is made of. It reads the text that the board prints, as any script would, and knows nothing else of it.

Read trace.py first, then symbols.py, elf.py and source_lines.py; then each word: summary.py, names.py, profile.py with
tally.py, returns.py and disassembly.py, diff.py, and picture.py with grid.py and drawing.py. command.py ties them
together."""
