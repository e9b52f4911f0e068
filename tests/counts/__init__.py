"""Tests that calls take no more instructions, memory and stack than table.txt has."""
