"""Checks of the program, and of the repository's own files.

Each is run as a module from the top of the repository: `python3 -m checks.compare.find PROGRAM` looks at PROGRAM, or at
bin/rumtsafi where no word names one, and `--help` says what it compares. The folders: `compare` has the comparisons
with the program that the gate runs, `views` those of the views, `refusals` two that have calls of the system refused,
and `repository` what looks at documents, definitions and the script, and makes what goes by them. They stand on
`oracles`, second readings and models that share nothing with the program; `generators`, which make up what is compared;
`tools`, programs of others; and `programs`, which GCC compiles.
"""
