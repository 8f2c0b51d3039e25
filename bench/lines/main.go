// Writes the tree of a text of JSON as a text, by encoding/json. The argument is the text's file, standard input `NAME TIMES SIZE`,
// of which only TIMES is read. Prints the sum of the lengths.
package main

import (
	"encoding/json"
	"fmt"
	"os"
)

func must(err error) {
	if err != nil {
		panic(err)
	}
}

func main() {
	text, err := os.ReadFile(os.Args[1])
	must(err)
	var tree any
	must(json.Unmarshal(text, &tree))
	var name string
	var times, size, sum int
	_, err = fmt.Scan(&name, &times, &size)
	must(err)
	for i := 0; i < times; i++ {
		text, err := json.Marshal(tree)
		must(err)
		sum += len(text)
	}
	fmt.Println(sum)
}
