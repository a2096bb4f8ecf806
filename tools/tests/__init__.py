"""Tests of the tool: `python3 -m unittest discover -s tools/tests -t tools`."""
