"""Tests of the tools: `python3 -m unittest discover -s tools/tests -t tools`. They need no kit and no built program."""
