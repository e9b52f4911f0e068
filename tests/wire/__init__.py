"""Tests of amqp_wire and test_calls, as `rt ci` left them, against the model and vectors/, and on devices that fail."""
