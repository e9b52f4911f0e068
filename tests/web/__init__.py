"""Tests of the page of bindings/web in a browser. tests/show compares it with what amqp_show prints."""
