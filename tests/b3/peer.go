// Does with Zipkin's own library what src/main.rs does, for multiple headers. Lines of standard input:
//
//	inject TRACE SPAN PARENT SAMPLED DEBUG    prints the headers; PARENT is - for none, SAMPLED - if deferred
//	extract NAME=VALUE ..                     prints TRACE SPAN SAMPLED DEBUG, none, or the error; SAMPLED as above
package main

import (
	"bufio"
	"fmt"
	"net/http"
	"os"
	"strconv"
	"strings"

	"github.com/openzipkin/zipkin-go/model"
	"github.com/openzipkin/zipkin-go/propagation/b3"
)

var names = []string{b3.TraceID, b3.SpanID, b3.ParentSpanID, b3.Sampled, b3.Flags}

func bit(set bool) int {
	if set {
		return 1
	}
	return 0
}

func inject(words []string) string {
	trace, err := model.TraceIDFromHex(words[0])
	if err != nil {
		return err.Error()
	}
	span, _ := strconv.ParseUint(words[1], 16, 64)
	context := model.SpanContext{TraceID: trace, ID: model.ID(span), Debug: words[4] == "1"}
	if words[2] != "-" {
		parent, _ := strconv.ParseUint(words[2], 16, 64)
		id := model.ID(parent)
		context.ParentID = &id
	}
	if words[3] != "-" {
		sampled := words[3] == "1"
		context.Sampled = &sampled
	}
	request, _ := http.NewRequest("GET", "http://localhost", nil)
	if err := b3.InjectHTTP(request)(context); err != nil {
		return err.Error()
	}
	var said []string
	for _, name := range names {
		if value := request.Header.Get(name); value != "" {
			said = append(said, name+"="+value)
		}
	}
	return strings.Join(said, " ")
}

func extract(words []string) string {
	request, _ := http.NewRequest("GET", "http://localhost", nil)
	for _, word := range words {
		if parts := strings.SplitN(word, "=", 2); len(parts) == 2 {
			request.Header.Set(parts[0], parts[1])
		}
	}
	context, err := b3.ExtractHTTP(request)()
	if err != nil {
		return err.Error()
	}
	if context.TraceID.Empty() || context.ID == 0 {
		return "none"
	}
	sampled := "-"
	if context.Debug {
		sampled = "1"
	} else if context.Sampled != nil {
		sampled = strconv.Itoa(bit(*context.Sampled))
	}
	return fmt.Sprintf("%016x%016x %016x %s %d", context.TraceID.High, context.TraceID.Low, uint64(context.ID), sampled,
		bit(context.Debug))
}

func main() {
	lines := bufio.NewScanner(os.Stdin)
	for lines.Scan() {
		words := strings.Split(lines.Text(), " ")
		if words[0] == "inject" {
			fmt.Println(inject(words[1:]))
		} else {
			fmt.Println(extract(words[1:]))
		}
	}
}
