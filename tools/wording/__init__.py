"""What tools/words makes of the tables of the program's words: a man page, and completions of three shells."""
