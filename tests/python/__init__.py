"""Tests of the Python package in bindings/python, with its adapters and its wheel, without a broker."""
