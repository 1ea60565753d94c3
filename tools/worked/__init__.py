"""A built program or auditor beside what was worked out by hand: scripts and queries (worked_runs.py, with tools/runs), command lines
(program_words.py), transcripts (audit_texts.py) and the examples of the pages (doc_examples.py)."""
