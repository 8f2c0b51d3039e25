// Command forward reads headers, one `name: value` a line, starts a span below theirs, and prints the headers to send on.
package main

import (
	"bufio"
	"context"
	"go.opentelemetry.io/otel/propagation"
	"net/http"
	"net/textproto"
	"os"
	"otelc"
)

func main() {
	received, _ := textproto.NewReader(bufio.NewReader(os.Stdin)).ReadMIMEHeader()
	propagator, sent := otelc.Propagator{}, http.Header{}
	ctx := propagator.Extract(context.Background(), propagation.HeaderCarrier(received))
	propagator.Inject(otelc.StartChild(ctx), propagation.HeaderCarrier(sent))
	_ = sent.Write(os.Stdout)
}
