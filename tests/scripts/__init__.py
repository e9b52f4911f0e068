"""Tests of the scripts of CI and of packaging, with stand-ins for what they call: nothing is proved or built."""
