// Operations of OpenTelemetry Go: those of the port's program, bench/port, under the same names.
//
// Standard input is one line, NAME TIMES SIZE: the operation, how many times it is done, and the size of its operand. The
// output is a number that depends on the results, the same as the port's.
package main

import (
	"context"
	"encoding/binary"
	"fmt"
	"net/http"
	"strings"
	"time"

	"go.opentelemetry.io/otel/attribute"
	"go.opentelemetry.io/otel/baggage"
	"go.opentelemetry.io/otel/propagation"
	sdk "go.opentelemetry.io/otel/sdk/trace"
	"go.opentelemetry.io/otel/trace"
)

// ids counts ids up from 1, as the port does here.
type ids struct{ traces, spans uint64 }

func (i *ids) NewIDs(ctx context.Context) (id trace.TraceID, span trace.SpanID) {
	i.traces++
	binary.BigEndian.PutUint64(id[8:], i.traces)
	return id, i.NewSpanID(ctx, id)
}

func (i *ids) NewSpanID(context.Context, trace.TraceID) (id trace.SpanID) {
	i.spans++
	binary.BigEndian.PutUint64(id[:], i.spans)
	return id
}

// counter counts spans, in place of sending them.
type counter struct{ spans int }

func (c *counter) ExportSpans(_ context.Context, batch []sdk.ReadOnlySpan) error {
	c.spans += len(batch)
	return nil
}

func (c *counter) Shutdown(context.Context) error { return nil }

// at is the fixed time of each start, event and end.
var at = trace.WithTimestamp(time.Unix(0, 3))

// kept keeps results from being optimized away.
var kept interface{}

func one(is bool) uint64 {
	if is {
		return 1
	}
	return 0
}

func tracer(sampler sdk.Sampler) trace.Tracer {
	batches := sdk.WithBatcher(&counter{}, sdk.WithBlocking())
	return sdk.NewTracerProvider(sdk.WithSampler(sampler), sdk.WithIDGenerator(&ids{}), batches).Tracer("bench")
}

// empty starts spans in the context, and ends them.
func empty(tracer trace.Tracer, ctx context.Context) func() uint64 {
	return func() uint64 {
		_, span := tracer.Start(ctx, "work", at)
		is := span.IsRecording()
		span.End(at)
		return 1 + one(is)
	}
}

func filled(tracer trace.Tracer) func() uint64 {
	return func() uint64 {
		_, span := tracer.Start(context.Background(), "work", at)
		span.SetAttributes(attribute.String("http.request.method", "GET"))
		span.SetAttributes(attribute.Int64("http.response.status_code", 200))
		span.AddEvent("cache miss", at)
		is := span.IsRecording()
		span.End(at)
		return 1 + one(is)
	}
}

var headers = http.Header{
	"Traceparent": {"00-0af7651916cd43dd8448eb211c80319c-b7ad6b7169203331-01"},
	"Tracestate":  {"congo=t61rcWkgMzE,rojo=00f067aa0ba902b7"},
	"Baggage":     {"userId=alice,serverNode=DF%2028,isProduction=false"},
}

var both = propagation.NewCompositeTextMapPropagator(propagation.TraceContext{}, propagation.Baggage{})

func extract() context.Context {
	return both.Extract(context.Background(), propagation.HeaderCarrier(headers))
}

// members is the text of as many members, each value with this sign.
func members(blank string, size int) string {
	texts := make([]string, size)
	for i := range texts {
		texts[i] = fmt.Sprintf("key%d=value%s%d", i, blank, i)
	}
	return strings.Join(texts, ",")
}

type key string

// entries is a context with as many values.
func entries(size int) context.Context {
	ctx := context.WithValue(context.Background(), key("name"), "request-name")
	for i := 1; i < size; i++ {
		ctx = context.WithValue(ctx, key(fmt.Sprint("extra", i)), 1)
	}
	return ctx
}

// operation is one of the name, or nil.
func operation(name string, size int) func() uint64 {
	switch name {
	case "live_span":
		return filled(tracer(sdk.AlwaysSample()))
	case "live_child":
		tracer := tracer(sdk.AlwaysSample())
		ctx, _ := tracer.Start(context.Background(), "work", at)
		return empty(tracer, ctx)
	case "sdk_span_unsampled":
		return empty(tracer(sdk.NeverSample()), context.Background())
	case "sdk_span_noop":
		return empty(trace.NewNoopTracerProvider().Tracer("bench"), context.Background())
	case "http_extract":
		return func() uint64 {
			ctx := extract()
			return uint64(baggage.FromContext(ctx).Len()) + one(trace.SpanContextFromContext(ctx).IsValid())
		}
	case "http_inject":
		ctx := extract()
		return func() uint64 {
			sent := http.Header{}
			both.Inject(ctx, propagation.HeaderCarrier(sent))
			return uint64(len(sent))
		}
	case "state_read":
		text := members("", size)
		return func() uint64 {
			state, err := trace.ParseTraceState(text)
			kept = state
			return one(err != nil)
		}
	case "header_baggage":
		carrier := propagation.HeaderCarrier{"Baggage": {members("%20", size)}}
		return func() uint64 {
			return uint64(baggage.FromContext(propagation.Baggage{}.Extract(context.Background(), carrier)).Len())
		}
	case "baggage_to_string":
		// A value that needs an escape here too: no value has a blank.
		held, _ := baggage.Parse(members("!", size))
		return func() uint64 { return uint64(len(held.String())) }
	case "context_get_oldest":
		ctx := entries(size)
		return func() uint64 { return uint64(len(ctx.Value(key("name")).(string))) }
	case "context_with_value":
		ctx := entries(size)
		return func() uint64 {
			kept = context.WithValue(ctx, key("number"), 1)
			return 0
		}
	}
	return nil
}

func main() {
	var name string
	var times, size int
	fmt.Scan(&name, &times, &size)
	once, sum := operation(name, size), uint64(0)
	if once == nil {
		fmt.Println("no such operation")
		return
	}
	for i := 0; i < times; i++ {
		sum += once()
	}
	fmt.Println(sum)
}
