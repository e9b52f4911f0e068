"""`decode` for run.py, by php-amqplib. PHP_ADAPTER is the path of php.php, and PHP_AMQPLIB that of the library's classes."""

from adapters.program import decoder

decode = decoder("PHP_ADAPTER")
