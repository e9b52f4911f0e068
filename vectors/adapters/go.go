// Prints the table on standard input, as program.py reads it, by amqp091-go: as the properties of a server. It is built with
// CGO_ENABLED=0: with cgo less of the runner's 2 GiB is left to it.
package main

import (
	"bufio"
	"encoding/binary"
	"fmt"
	amqp "github.com/rabbitmq/amqp091-go"
	"io"
	"math"
	"os"
	"strings"
	"time"
)

type server struct{ io.Reader }

func (server) Write(data []byte) (int, error) { return len(data), nil }
func (server) Close() error                   { return nil }

var out = bufio.NewWriter(os.Stdout)

func put(value interface{}) {
	switch it := value.(type) {
	case float32:
		put(float64(it))
	case float64:
		fmt.Fprintf(out, `{"d":"%016x"}`, math.Float64bits(it))
	case amqp.Decimal:
		fmt.Fprintf(out, `{"D":"%de-%d"}`, it.Value, it.Scale)
	case time.Time:
		fmt.Fprint(out, it.Unix())
	case string, []byte:
		fmt.Fprintf(out, `{"S":"%x"}`, it)
	case []interface{}:
		before := "["
		for _, each := range it {
			fmt.Fprint(out, before)
			put(each)
			before = ","
		}
		fmt.Fprint(out, strings.Replace(before, ",", "", 1), "]")
	case amqp.Table:
		before := `{"F":[`
		for key, each := range it {
			fmt.Fprintf(out, `%s["%x",`, before, key)
			put(each)
			before = "],"
		}
		fmt.Fprint(out, strings.Replace(before, ",", "", 1), "]}")
	default:
		fmt.Fprint(out, strings.Replace(fmt.Sprint(value), "<nil>", "null", 1))
	}
}

func frame(method string) string {
	size := binary.BigEndian.AppendUint32(nil, uint32(len(method)))
	return "\x01\x00\x00" + string(size) + method + "\xce"
}

func main() {
	table, _ := io.ReadAll(os.Stdin)
	start := frame("\x00\x0a\x00\x0a\x00\x09" + string(table) + "\x00\x00\x00\x05PLAIN\x00\x00\x00\x05en_US")
	tuned := frame("\x00\x0a\x00\x1e"+strings.Repeat("\x00", 8)) + frame("\x00\x0a\x00\x29\x00")
	plain := amqp.Config{SASL: []amqp.Authentication{&amqp.PlainAuth{}}, Vhost: "/"}
	connection, err := amqp.Open(server{strings.NewReader(start + tuned)}, plain)
	if err != nil {
		os.Exit(1)
	}
	put(connection.Properties)
	out.Flush()
}
