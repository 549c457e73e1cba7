"""Tests of the companion tools: `python3 -m unittest` in the folder tools. Those that need fontTools say so where they are skipped."""
