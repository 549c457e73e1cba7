"""An interpreter of its own for the cases of each program of cases; see docs/CASES.md."""
