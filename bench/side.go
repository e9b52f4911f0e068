// The Go client as a side of bench/measure.py: compiled with the client's own files, it takes the commands of driver.rs.
package main

import (
	"bufio"
	"bytes"
	"fmt"
	"io"
	"os"
	"strconv"
	"strings"
	"time"
)

var kept Table

// Reads table by table up to the end, and returns the last.
func readValue(input []byte) (table Table, err error) {
	for rest := bytes.NewReader(input); rest.Len() > 0 && err == nil; {
		if tag, _ := rest.ReadByte(); tag != 'F' {
			return nil, io.ErrUnexpectedEOF
		}
		if table, err = readTable(rest); err != nil {
			return nil, err
		}
	}
	return table, err
}

func main() {
	input, table, out := []byte{}, Table{}, bytes.Buffer{}
	fmt.Println("go.read go.write")
	lines := bufio.NewScanner(os.Stdin)
	for lines.Scan() {
		words := strings.Fields(lines.Text())
		switch words[0] {
		case "load":
			input, _ = os.ReadFile(words[1])
			table, _ = readValue(input)
			fmt.Println("ok")
		case "make":
			out.Reset()
			if table == nil || writeTable(&out, table) != nil {
				fmt.Println(-1)
			} else if words[1] == "go.read" {
				fmt.Println(len(input))
			} else {
				os.WriteFile(words[2], append([]byte{'F'}, out.Bytes()...), 0o644)
				fmt.Println(out.Len() + 1)
			}
		case "time":
			times, _ := strconv.Atoi(words[2])
			start := time.Now()
			for i := 0; i < times; i++ {
				if words[1] == "go.read" {
					kept, _ = readValue(input)
				} else {
					out.Reset()
					writeTable(&out, table)
				}
			}
			fmt.Println(time.Since(start).Nanoseconds())
		}
	}
}
