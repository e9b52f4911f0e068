"""Adapters for run.py, a module for each codec: its `decode` takes the bytes of a table, and returns a dict."""
