// Package otelc has a propagator for OpenTelemetry Go that reads and writes the headers traceparent, tracestate and baggage by
// the library for C, which `make install` installs and pkg-config finds as otel_c.
package otelc

import (
	"context"
	"net/http"
	"strings"

	"go.opentelemetry.io/otel"
	"go.opentelemetry.io/otel/baggage"
	"go.opentelemetry.io/otel/propagation"
	"go.opentelemetry.io/otel/trace"
)

const (
	traceparent   = "traceparent"
	tracestate    = "tracestate"
	baggageHeader = "baggage"
)

var fields = [3]string{traceparent, tracestate, baggageHeader}

// Propagator is a propagation.TextMapPropagator. What counts in a header, and what is sent, is said in otel.h at
// otel_context_extract and otel_context_inject, except that an empty tracestate or baggage isn't sent. As in OpenTelemetry Go
// 1.1, the value of a member of a baggage is escaped as in a header.
type Propagator struct{}

var _ propagation.TextMapPropagator = Propagator{}

// Fields returns the names of the headers.
func (Propagator) Fields() []string { return append([]string(nil), fields[:]...) }

// Extract returns the context with the values of the carrier's headers. All values of a propagation.HeaderCarrier count, and
// of another carrier the one that it returns. A trace state or a property that OpenTelemetry Go can't hold is left out. Out of
// memory, it returns the given context, and calls the handler of errors.
func (Propagator) Extract(ctx context.Context, carrier propagation.TextMapCarrier) context.Context {
	parent, state, members := get(carrier, traceparent), "", get(carrier, baggageHeader)
	if parent != "" {
		state = get(carrier, tracestate)
	}
	if parent == "" && members == "" {
		return ctx
	}
	read, err := extract(parent, state, members)
	if err != nil {
		otel.Handle(err)
		return ctx
	}
	if read.spanID.IsValid() {
		ctx = trace.ContextWithRemoteSpanContext(ctx, read.span())
	}
	if read.hasBaggage {
		ctx = baggage.ContextWithBaggage(ctx, baggageOf(read.members))
	}
	return ctx
}

// Inject sets the headers that carry the context. If the library refuses, as out of memory, it sets none, and calls the handler
// of errors.
func (Propagator) Inject(ctx context.Context, carrier propagation.TextMapCarrier) {
	span, held := trace.SpanContextFromContext(ctx), baggage.FromContext(ctx)
	if !span.IsValid() && held.Len() == 0 {
		return
	}
	texts, err := inject(span, held)
	if err != nil {
		otel.Handle(err)
		return
	}
	for at, name := range fields {
		if texts[at] != "" {
			carrier.Set(name, texts[at])
		}
	}
}

// StartChild returns the context with a child of its span or, without a span, with the first of a trace, which is sampled. New
// ids are random, from the system's source. If this gives none, or out of memory, it calls the handler of errors, and the context
// has no span, so that the parent isn't sent on as its own child.
func StartChild(ctx context.Context) context.Context {
	parent := trace.SpanContextFromContext(ctx)
	made, err := startChild(parent)
	if err != nil {
		otel.Handle(err)
		return trace.ContextWithSpanContext(ctx, trace.SpanContext{})
	}
	config := trace.SpanContextConfig{TraceID: made.traceID, SpanID: made.spanID, TraceFlags: made.flags}
	if parent.IsValid() {
		config.TraceState = parent.TraceState()
	}
	return trace.ContextWithSpanContext(ctx, trace.NewSpanContext(config))
}

// get returns the values of the header, joined by commas, or "" if there is none. Repeated traceparents count as none.
func get(carrier propagation.TextMapCarrier, name string) string {
	headers, ok := carrier.(propagation.HeaderCarrier)
	if !ok {
		return carrier.Get(name)
	}
	switch values := http.Header(headers).Values(name); {
	case len(values) == 0 || len(values) > 1 && name == traceparent:
		return ""
	case len(values) == 1:
		return values[0]
	default:
		return strings.Join(values, ",")
	}
}

// span returns the span of the headers.
func (read *extracted) span() trace.SpanContext {
	return trace.NewSpanContext(trace.SpanContextConfig{
		TraceID: read.traceID, SpanID: read.spanID, TraceFlags: read.flags, TraceState: stateOf(read.state), Remote: true,
	})
}

// stateOf returns the trace state of a header that the library wrote. OpenTelemetry Go reads fewer trace states than the library:
// another one is empty. Inserting pairs takes less time than trace.ParseTraceState.
func stateOf(header string) (state trace.TraceState) {
	for header != "" {
		begin := strings.LastIndexByte(header, ',') + 1
		key, value := cut(header[begin:], '=')
		inserted, err := state.Insert(key, value)
		if err != nil {
			return trace.TraceState{}
		}
		if state = inserted; begin == 0 {
			break
		}
		header = header[:begin-1]
	}
	return state
}

// appendMembers adds the members to the text, as in a header, with their values as they are.
func appendMembers(text []byte, held baggage.Baggage) []byte {
	for at, member := range held.Members() {
		if at != 0 {
			text = append(text, ',')
		}
		text = append(append(append(text, member.Key()...), '='), member.Value()...)
		for _, property := range member.Properties() {
			text = append(append(text, ';'), property.String()...)
		}
	}
	return text
}

// baggageOf returns the baggage of a header that the library wrote.
func baggageOf(header string) baggage.Baggage {
	if held, err := baggage.Parse(header); err == nil {
		return held
	}
	members := make([]baggage.Member, 0, 8)
	for header != "" {
		text, rest := cut(header, ',')
		if member, err := memberOf(text); err == nil {
			members = append(members, member)
		}
		header = rest
	}
	held, err := baggage.New(members...)
	if err != nil {
		otel.Handle(err)
	}
	return held
}

// memberOf returns the member of a text, without the properties that can't be read.
func memberOf(text string) (baggage.Member, error) {
	text, metadata := cut(text, ';')
	key, value := cut(text, '=')
	var properties []baggage.Property
	for metadata != "" {
		property, rest := cut(metadata, ';')
		if read, err := propertyOf(strings.TrimSpace(property)); err == nil {
			properties = append(properties, read)
		}
		metadata = rest
	}
	return baggage.NewMember(key, value, properties...)
}

func propertyOf(text string) (baggage.Property, error) {
	if strings.IndexByte(text, '=') < 0 {
		return baggage.NewKeyProperty(text)
	}
	key, value := cut(text, '=')
	return baggage.NewKeyValueProperty(strings.TrimSpace(key), strings.TrimSpace(value))
}

// cut returns the text before the first such byte, and after it.
func cut(text string, at byte) (string, string) {
	if end := strings.IndexByte(text, at); end >= 0 {
		return text[:end], text[end+1:]
	}
	return text, ""
}
