"""A slow model of the program, written from the rules in words (docs/LANGUAGE.md). It shares no code with the program.

language.py reads statements and scripts; database.py is the database of one thread; trees.py, ranges.py and retrieval.py
are how rows are found; engine.py puts these together, so that each reply, traces and counts of steps among them, is the
one that the program gives; program.py runs a script. course.py tells whether a trace can be one at all.
slow_program.py runs it from the command line, and slow_audit.py judges a transcript by it."""
