"""Tests with a running RabbitMQ and its clients: the Python package, its adapters, and libamqp_values_rabbitmq.so."""
