#!/usr/bin/env php
<?php // Prints the table on standard input, as program.py reads it, by php-amqplib, whose folder of classes PHP_AMQPLIB names.
use PhpAmqpLib\Wire\{AMQPAbstractCollection as Type, AMQPArray, AMQPBufferReader, AMQPDecimal, AMQPTable};

spl_autoload_register(fn($name) => require getenv('PHP_AMQPLIB') . '/' . strtr($name, '\\', '/') . '.php');
error_reporting(E_ERROR);

function text($type, $value): string
{
    if ($value instanceof AMQPTable) {
        $parts = [];
        foreach ($value as $key => [$inner, $it]) {
            $parts[] = '["' . bin2hex((string) $key) . '",' . text($inner, $it) . ']';
        }
        return '{"F":[' . implode(',', $parts) . ']}';
    }
    if ($value instanceof AMQPArray) {
        $parts = [];
        foreach ($value as [$inner, $it]) {
            $parts[] = text($inner, $it);
        }
        return '[' . implode(',', $parts) . ']';
    }
    if ($value instanceof AMQPDecimal) {
        return '{"D":"' . $value->getN() . 'e-' . $value->getE() . '"}';
    }
    return match ($type) {
        Type::T_BOOL => $value ? 'true' : 'false',
        Type::T_FLOAT, Type::T_DOUBLE => '{"d":"' . bin2hex(pack('E', $value)) . '"}',
        Type::T_STRING_LONG, Type::T_STRING_SHORT, Type::T_BYTES => '{"S":"' . bin2hex($value) . '"}',
        default => $value === null ? 'null' : (string) $value,
    };
}

try {
    echo text(null, (new AMQPBufferReader(stream_get_contents(STDIN)))->read_table(true));
} catch (Exception | Error $why) {
    fwrite(STDERR, get_class($why) . ': ' . $why->getMessage());
    exit(1);
}
