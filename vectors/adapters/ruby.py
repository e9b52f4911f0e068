"""`decode` for run.py, by Ruby's amq-protocol. RUBY_ADAPTER is the path of ruby.rb, and RUBYLIB that of the library."""

from adapters.program import decoder

decode = decoder("RUBY_ADAPTER")
