"""Tests of Debian's packages, of a release and of amqp_show as it is installed: of what is made after the proofs."""
