"""Tests of the test vectors (vectors/): their form, tests/model on each case, and the scores of other codecs."""
