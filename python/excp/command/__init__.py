"""The command `excp`: its words, their options, and how they read files and write streams.

`words.WORDS` is the table of words. The module of a word has two functions:

- `add_arguments(parser)` adds its options to a parser.
- `run(given)` carries it out, and returns the exit status. It may raise `streams.Ended`.
"""
