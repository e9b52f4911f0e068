// Prints the table on standard input, as program.py reads it, by RabbitMQ's client for Java.
import com.rabbitmq.client.LongString;
import com.rabbitmq.client.impl.ValueReader;
import java.io.DataInputStream;
import java.io.IOException;
import java.math.BigDecimal;
import java.nio.charset.StandardCharsets;
import java.util.*;
import java.util.stream.Collectors;

public class Java {
    static String hex(byte[] it) { return HexFormat.of().formatHex(it); }

    static String pair(Map.Entry<?, ?> it) {
        return "[\"" + hex(it.getKey().toString().getBytes(StandardCharsets.UTF_8)) + "\"," + text(it.getValue()) + "]";
    }

    static String text(Object value) {
        if (value instanceof Map<?, ?> it)
            return "{\"F\":[" + it.entrySet().stream().map(Java::pair).collect(Collectors.joining(",")) + "]}";
        if (value instanceof List<?> it) return "[" + it.stream().map(Java::text).collect(Collectors.joining(",")) + "]";
        if (value instanceof LongString it) return "{\"S\":\"" + hex(it.getBytes()) + "\"}";
        if (value instanceof byte[] it) return "{\"S\":\"" + hex(it) + "\"}";
        if (value instanceof Float it) return String.format("{\"f\":\"%08x\"}", Float.floatToRawIntBits(it));
        if (value instanceof Double it) return String.format("{\"d\":\"%016x\"}", Double.doubleToRawLongBits(it));
        if (value instanceof BigDecimal it) return "{\"D\":\"" + it.unscaledValue() + "e-" + it.scale() + "\"}";
        return value instanceof Date it ? String.valueOf(Math.floorDiv(it.getTime(), 1000)) : String.valueOf(value);
    }

    public static void main(String[] args) {
        try {
            System.out.println(text(new ValueReader(new DataInputStream(System.in)).readTable()));
        } catch (IOException | RuntimeException why) {
            System.err.println(why);
            System.exit(1);
        }
    }
}
