"""The reference implementation in Python, called the model, by which other suites judge what is read and written.

It shares no code with the crates.
"""
