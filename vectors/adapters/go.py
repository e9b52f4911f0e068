"""`decode` for run.py, by Go's client amqp091-go. GO_ADAPTER is the path of the program, which is built from go.go."""

from adapters.program import decoder

decode = decoder("GO_ADAPTER")
