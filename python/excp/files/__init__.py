"""The files that the command writes: which ones it may replace, and how one is replaced whole.

`targets.Targets` has the rules for a call, `replacement.Replacement` one file that is written.
"""
