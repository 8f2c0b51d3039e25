package otelc

/*
#cgo pkg-config: otel_c
#cgo CFLAGS: -O2
#include "carry.h"

static otelc_text text_of(_GoString_ text) {
    otelc_text made = {_GoStringPtr(text), _GoStringLen(text)};
    return made;
}

static otelc_read extract(_GoString_ parent, _GoString_ state, _GoString_ baggage, char *buffer, size_t capacity) {
    return otelc_extract(text_of(parent), text_of(state), text_of(baggage), buffer, capacity);
}

static otelc_child start_child(otel_span_context span) {
    return otelc_start_child(&span);
}

static otelc_sent inject(otel_span_context span, const char *members, size_t length, char *buffer, size_t capacity) {
    const otelc_text baggage = {members, length};
    return otelc_inject(&span, baggage, buffer, capacity);
}
*/
import "C"

import (
	"fmt"
	"sync"
	"unsafe"

	"go.opentelemetry.io/otel/baggage"
	"go.opentelemetry.io/otel/trace"
)

// usual is the capacity that is tried first. Longer headers are rare.
const usual = 1024

// buffers holds buffers that are used again.
var buffers = sync.Pool{New: func() interface{} { return &buffer{bytes: make([]byte, usual)} }}

// A buffer holds texts that the library writes, one after another, and members of a baggage that it is given.
type buffer struct{ bytes, members []byte }

func startOf(bytes []byte) *C.char {
	if len(bytes) == 0 {
		return nil
	}
	return (*C.char)(unsafe.Pointer(&bytes[0]))
}

func (b *buffer) start() *C.char     { return startOf(b.bytes) }
func (b *buffer) capacity() C.size_t { return C.size_t(len(b.bytes)) }

// texts returns the two texts of these lengths.
func (b *buffer) texts(made *C.otelc_texts) (string, string) {
	first, second := made.lengths[0], made.lengths[1]
	return string(b.bytes[:first]), string(b.bytes[first : first+second])
}

// grow makes room for texts of these lengths.
func (b *buffer) grow(made *C.otelc_texts) {
	b.bytes = make([]byte, made.lengths[0]+made.lengths[1])
}

func errorOf(status C.otel_status) error {
	return fmt.Errorf("otelc: %s", C.GoString(C.otel_status_text(status)))
}

// extracted is what the library reads in headers.
type extracted struct {
	traceID trace.TraceID
	spanID  trace.SpanID
	flags   trace.TraceFlags
	// The trace state and the baggage, as headers.
	state, members string
	// Whether there is a header of a baggage that can be read.
	hasBaggage bool
}

// set takes the ids and the flags over.
func (made *extracted) set(span *C.otel_span_context) {
	made.traceID = *(*trace.TraceID)(unsafe.Pointer(&span.trace_id))
	made.spanID = *(*trace.SpanID)(unsafe.Pointer(&span.span_id))
	made.flags = trace.TraceFlags(span.flags)
}

// partsOf returns the ids and the flags of the span, as C has them.
func partsOf(sc trace.SpanContext) (span C.otel_span_context) {
	*(*trace.TraceID)(unsafe.Pointer(&span.trace_id)) = sc.TraceID()
	*(*trace.SpanID)(unsafe.Pointer(&span.span_id)) = sc.SpanID()
	span.flags = C.uint8_t(sc.TraceFlags())
	return span
}

// startChild returns the ids and the flags of a child of the span.
func startChild(sc trace.SpanContext) (made extracted, err error) {
	done := C.start_child(partsOf(sc))
	if done.status != C.OTEL_STATUS_OK {
		return made, errorOf(done.status)
	}
	made.set(&done.span)
	return made, nil
}

// extract reads the headers. An empty text is a missing header.
func extract(parent, state, members string) (made extracted, err error) {
	b := buffers.Get().(*buffer)
	defer buffers.Put(b)
	for {
		switch done := C.extract(parent, state, members, b.start(), b.capacity()); done.status {
		case C.OTEL_STATUS_OK:
			made.set(&done.span)
			made.state, made.members = b.texts(&done.texts)
			if done.texts.is_same != 0 {
				made.members = members
			}
			made.hasBaggage = done.has_baggage != 0
			return made, nil
		case C.OTEL_STATUS_NO_ROOM:
			b.grow(&done.texts)
		default:
			return made, errorOf(done.status)
		}
	}
}

// inject returns the headers that carry the span and the baggage. One that is empty needn't be sent.
func inject(sc trace.SpanContext, held baggage.Baggage) (texts [3]string, err error) {
	if sc.IsValid() {
		// The library would read each trace state that OpenTelemetry Go can hold, and write the same text again.
		texts[1] = sc.TraceState().String()
	}
	span := partsOf(sc)
	b := buffers.Get().(*buffer)
	defer buffers.Put(b)
	b.members = appendMembers(b.members[:0], held)
	for {
		done := C.inject(span, startOf(b.members), C.size_t(len(b.members)), b.start(), b.capacity())
		switch done.status {
		case C.OTEL_STATUS_OK:
			texts[0], texts[2] = b.texts(&done.texts)
			if done.texts.is_same != 0 {
				texts[2] = string(b.members)
			}
			return texts, nil
		case C.OTEL_STATUS_NO_ROOM:
			b.grow(&done.texts)
		default:
			return texts, errorOf(done.status)
		}
	}
}
