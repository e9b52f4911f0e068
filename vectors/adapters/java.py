"""`decode` for run.py, by RabbitMQ's client for Java. JAVA_ADAPTER is the path of a script that runs Java.java's class."""

from adapters.program import decoder

decode = decoder("JAVA_ADAPTER")
