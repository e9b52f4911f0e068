#!/usr/bin/env ruby
# Prints the table on standard input, as program.py reads it, by amq-protocol, which RUBYLIB has, or Debian's package.
require "bigdecimal"
require "amq/protocol/client"

def text(it)
  case it
  when Hash then '{"F":[' + it.map { |key, each| %(["#{key.unpack1("H*")}",#{text(each)}]) }.join(",") + "]}"
  when Array then "[" + it.map { |each| text(each) }.join(",") + "]"
  when String then %({"S":"#{it.unpack1("H*")}"})
  when Float then %({"d":"#{[it].pack("G").unpack1("H*")}"})
  when BigDecimal then %({"D":"#{it.to_s("F")}"})
  when Time then it.to_i.to_s
  when nil then "null"
  else it.to_s
  end
end

begin
  table = AMQ::Protocol::Table.decode($stdin.binmode.read)
rescue StandardError => e
  warn e.inspect
  exit 1
end
puts text(table)
