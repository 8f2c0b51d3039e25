package otelc

import (
	"context"
	"fmt"
	"math/rand"
	"net/http"
	"sort"
	"strings"
	"sync"
	"testing"

	"go.opentelemetry.io/otel/baggage"
	"go.opentelemetry.io/otel/propagation"
	"go.opentelemetry.io/otel/trace"
)

// Headers of W3C trace-context-2 (sections 3.2 and 3.3) and of W3C baggage ("Example").
const (
	exampleParent  = "00-0af7651916cd43dd8448eb211c80319c-b7ad6b7169203331-01"
	exampleState   = "rojo=00f067aa0ba902b7,congo=t61rcWkgMzE"
	exampleBaggage = "userId=alice,serverNode=DF%2028,isProduction=false"
)

type mapCarrier map[string]string

func (m mapCarrier) Get(name string) string { return m[name] }
func (m mapCarrier) Set(name, value string) { m[name] = value }
func (m mapCarrier) Keys() []string         { return nil }

func read(headers map[string]string) context.Context {
	return Propagator{}.Extract(context.Background(), mapCarrier(headers))
}

func write(ctx context.Context) mapCarrier {
	sent := mapCarrier{}
	Propagator{}.Inject(ctx, sent)
	return sent
}

func TestHeadersAreRead(t *testing.T) {
	ctx := read(map[string]string{traceparent: exampleParent, tracestate: exampleState, baggageHeader: exampleBaggage})
	sc, held := trace.SpanContextFromContext(ctx), baggage.FromContext(ctx)
	if sc.TraceID().String() != exampleParent[3:35] || sc.SpanID().String() != exampleParent[36:52] || !sc.IsSampled() ||
		!sc.IsRemote() || sc.TraceState().String() != exampleState {
		t.Errorf("span: %v", sc)
	}
	if held.Len() != 3 || held.Member("userId").Value() != "alice" || held.Member("serverNode").Value() != "DF%2028" {
		t.Errorf("baggage: %v", held)
	}
}

func TestHeadersAreSentOn(t *testing.T) {
	sent := write(read(map[string]string{traceparent: exampleParent, tracestate: exampleState, baggageHeader: "k=a%20b;p;q=1"}))
	want := map[string]string{traceparent: exampleParent, tracestate: exampleState, baggageHeader: "k=a%20b;p;q=1"}
	if len(sent) != len(want) {
		t.Errorf("sent: %v", sent)
	}
	for name := range want {
		if sent[name] != want[name] {
			t.Errorf("%s: %q", name, sent[name])
		}
	}
}

func TestNothingIsReadOrSent(t *testing.T) {
	zero := "00-" + strings.Repeat("0", 32) + exampleParent[35:]
	upper := strings.ToUpper(exampleParent)
	for _, value := range []string{"", "x", "01" + exampleParent[2:], zero, upper, exampleParent + "\n", "\xe9"} {
		ctx := read(map[string]string{traceparent: value})
		if trace.SpanContextFromContext(ctx).IsValid() {
			t.Errorf("%q is read", value)
		}
		if sent := write(ctx); len(sent) != 0 {
			t.Errorf("%q is sent as %v", value, sent)
		}
	}
}

func TestRepeatedHeaders(t *testing.T) {
	headers := http.Header{"Traceparent": {exampleParent}, "Tracestate": strings.Split(exampleState, ","), "Baggage": {"a=1", "b=2"}}
	ctx := Propagator{}.Extract(context.Background(), propagation.HeaderCarrier(headers))
	if got := trace.SpanContextFromContext(ctx).TraceState().String(); got != exampleState {
		t.Errorf("trace state: %q", got)
	}
	if got := baggage.FromContext(ctx).Len(); got != 2 {
		t.Errorf("%d members", got)
	}
	headers.Add("traceparent", exampleParent)
	ctx = Propagator{}.Extract(context.Background(), propagation.HeaderCarrier(headers))
	if trace.SpanContextFromContext(ctx).IsValid() {
		t.Error("a repeated traceparent is read")
	}
}

func TestAContextKeepsWhatIsMissing(t *testing.T) {
	ctx := read(map[string]string{traceparent: exampleParent, baggageHeader: "a=1"})
	ctx = Propagator{}.Extract(ctx, mapCarrier{traceparent: "x", baggageHeader: "b=\xe9"})
	if !trace.SpanContextFromContext(ctx).IsValid() || baggage.FromContext(ctx).Len() != 1 {
		t.Errorf("kept: %v", ctx)
	}
	ctx = Propagator{}.Extract(ctx, mapCarrier{baggageHeader: "b"})
	if baggage.FromContext(ctx).Len() != 0 {
		t.Error("a header without members keeps the baggage")
	}
}

func TestAHeaderThatCannotBeReadLeavesTheOthers(t *testing.T) {
	ctx := read(map[string]string{traceparent: exampleParent, tracestate: "a=\xe9", baggageHeader: "b=1"})
	sc := trace.SpanContextFromContext(ctx)
	if !sc.IsValid() || sc.TraceState().Len() != 0 || baggage.FromContext(ctx).Len() != 1 {
		t.Errorf("read: %v", ctx)
	}
	// OpenTelemetry Go holds no empty value.
	ctx = read(map[string]string{traceparent: exampleParent, tracestate: "a=1,b="})
	if sc = trace.SpanContextFromContext(ctx); !sc.IsValid() || sc.TraceState().Len() != 0 {
		t.Errorf("read: %v", ctx)
	}
}

func TestLongHeaders(t *testing.T) {
	value := strings.Repeat("v", 8000)
	state := "k0=v"
	for at := 1; at < 32; at++ {
		state += fmt.Sprintf(",k%d= %d", at, at)
	}
	sent := write(read(map[string]string{traceparent: exampleParent, tracestate: state, baggageHeader: "k=" + value}))
	if sent[tracestate] != state || sent[baggageHeader] != "k="+value {
		t.Errorf("%q and %d bytes are sent", sent[tracestate], len(sent[baggageHeader]))
	}
}

// text returns up to this many of the pieces, at random.
func text(random *rand.Rand, pieces []string, most int) string {
	made := ""
	for count := random.Intn(most + 1); count > 0; count-- {
		made += pieces[random.Intn(len(pieces))]
	}
	return made
}

// sorted returns the members of the header in their order. OpenTelemetry Go's baggages have none.
func sorted(header string) string {
	members := strings.Split(header, ",")
	sort.Strings(members)
	return strings.Join(members, ",")
}

// With a space at its end, no baggage is as the library would write it, so that the library does.
func TestABaggageIsTheOneThatTheLibraryWrites(t *testing.T) {
	pieces := []string{"a", "b", "Z", "9", "=", "=", "=1", ",", ",", ";", ";p", "%20", "%2F", "%2f", "%41", "%C3%A9", "%7F", "%",
		"/", " ", "\t", "!", "~", "(", "\"", "\x7f", "\xe9", "a=1,", "b=%20;p,", "c=2;q=3,"}
	random := rand.New(rand.NewSource(1))
	longest, full := "a="+strings.Repeat("v", 8190), "k0=v"
	for at := 1; at < 65; at++ {
		full += fmt.Sprintf(",k%d=v", at)
	}
	for at, header := 0, ""; at < 20000; at++ {
		if header = text(random, pieces, 8); at < 4 {
			header = []string{longest, longest + "v", full, full[:100]}[at]
		}
		if header == "" {
			continue
		}
		got, want := read(map[string]string{baggageHeader: header}), read(map[string]string{baggageHeader: header + " "})
		sent := write(want)[baggageHeader]
		if sorted(write(got)[baggageHeader]) != sorted(sent) {
			t.Fatalf("%q: %v is read, not %v", header, baggage.FromContext(got), baggage.FromContext(want))
		}
		if again := write(read(map[string]string{baggageHeader: sent + " "}))[baggageHeader]; sorted(again) != sorted(sent) {
			t.Fatalf("%q is sent, and the library writes %q", sent, again)
		}
	}
}

// A baggage of OpenTelemetry Go is sent as the library writes it.
func TestAHeldBaggageIsSentAsTheLibraryWritesIt(t *testing.T) {
	pieces := []string{"a", "Z", "9", "=", "%20", "%2F", "%2f", "%41", "%C3%A9", "%7F", "%", "/", "!", "~", "(", "@"}
	random := rand.New(rand.NewSource(2))
	for at := 0; at < 20000; at++ {
		property, err := baggage.NewKeyValueProperty("p", text(random, pieces, 3))
		if err != nil {
			t.Fatal(err)
		}
		member, err := baggage.NewMember("k", text(random, pieces, 5), []baggage.Property{property}[:at%2]...)
		if err != nil {
			t.Fatal(err)
		}
		held, err := baggage.New(member)
		if err != nil {
			t.Fatal(err)
		}
		sent := write(baggage.ContextWithBaggage(context.Background(), held))[baggageHeader]
		if again := write(read(map[string]string{baggageHeader: sent + " "}))[baggageHeader]; again != sent {
			t.Fatalf("%q is sent, and the library writes %q", sent, again)
		}
	}
}

// The library writes each trace state that OpenTelemetry Go can hold as OpenTelemetry Go does.
func TestAHeldTraceStateIsSentAsTheLibraryWritesIt(t *testing.T) {
	keys := []string{"a", "z", "9", "_", "-", "*", "/", "@"}
	values := []string{"a", " ", "!", "~", "+", "/", "@", "9", "-", "<", ">"}
	random := rand.New(rand.NewSource(3))
	inserted := 0
	for at := 0; at < 5000; at++ {
		state := trace.TraceState{}
		for pairs := random.Intn(5); pairs > 0; pairs-- {
			key, value := text(random, keys, 5), text(random, values, 5)
			if at%9 == 0 {
				key, value = key+strings.Repeat("k", 251), strings.Repeat(" ", 251)+value
			}
			if made, err := state.Insert(key, value); err == nil {
				state = made
				inserted++
			}
		}
		sc := trace.NewSpanContext(trace.SpanContextConfig{TraceID: trace.TraceID{1}, SpanID: trace.SpanID{1}, TraceState: state})
		sent := write(trace.ContextWithSpanContext(context.Background(), sc))
		if sent[tracestate] != state.String() {
			t.Fatalf("%q is sent as %q", state, sent[tracestate])
		}
		if again := trace.SpanContextFromContext(read(sent)).TraceState().String(); again != sent[tracestate] {
			t.Fatalf("%q is sent, and the library writes %q", sent[tracestate], again)
		}
	}
	if inserted < 1000 {
		t.Errorf("only %d pairs are valid", inserted)
	}
}

func TestFlagsAreKept(t *testing.T) {
	parent := exampleParent[:53] + "ff"
	if sent := write(read(map[string]string{traceparent: parent})); sent[traceparent] != parent {
		t.Errorf("sent: %v", sent)
	}
}

func TestManyAtOnce(t *testing.T) {
	var all sync.WaitGroup
	for at := 0; at < 8; at++ {
		all.Add(1)
		go func() {
			defer all.Done()
			for times := 0; times < 500; times++ {
				if sent := write(read(map[string]string{traceparent: exampleParent})); sent[traceparent] != exampleParent {
					t.Errorf("sent: %v", sent)
				}
			}
		}()
	}
	all.Wait()
}

func TestFields(t *testing.T) {
	if got := strings.Join(Propagator{}.Fields(), " "); got != "traceparent tracestate baggage" {
		t.Error(got)
	}
}

// Compare with `go test -bench .`: the propagators of OpenTelemetry Go do the same.
var propagators = map[string]propagation.TextMapPropagator{
	"C":  Propagator{},
	"Go": propagation.NewCompositeTextMapPropagator(propagation.TraceContext{}, propagation.Baggage{}),
}

// carried are headers of requests: with each header, and with fewer.
var carried = map[string]mapCarrier{
	"all":    {traceparent: exampleParent, tracestate: exampleState, baggageHeader: exampleBaggage},
	"fewest": {traceparent: exampleParent, tracestate: "rojo=1", baggageHeader: "userId=alice"},
	"most":   {traceparent: exampleParent, tracestate: exampleState + ",blue=a:b", baggageHeader: exampleBaggage + ",t=a;ttl=3,r=eu"},
	"state":  {traceparent: exampleParent, tracestate: exampleState},
	"parent": {traceparent: exampleParent},
}

// each runs the benchmark with each of the headers and propagators.
func each(b *testing.B, run func(b *testing.B, propagator propagation.TextMapPropagator, headers mapCarrier)) {
	for what, headers := range carried {
		for name, propagator := range propagators {
			b.Run(what+"/"+name, func(b *testing.B) {
				b.ReportAllocs()
				run(b, propagator, headers)
			})
		}
	}
}

func BenchmarkExtract(b *testing.B) {
	each(b, func(b *testing.B, propagator propagation.TextMapPropagator, headers mapCarrier) {
		for at := 0; at < b.N; at++ {
			propagator.Extract(context.Background(), headers)
		}
	})
}

func BenchmarkInject(b *testing.B) {
	each(b, func(b *testing.B, propagator propagation.TextMapPropagator, headers mapCarrier) {
		ctx, sent := read(headers), mapCarrier{}
		for at := 0; at < b.N; at++ {
			propagator.Inject(ctx, sent)
		}
	})
}

func TestAChildHasTheTraceOfItsParent(t *testing.T) {
	ctx := read(map[string]string{traceparent: exampleParent, tracestate: exampleState, baggageHeader: exampleBaggage})
	child, other := StartChild(ctx), StartChild(ctx)
	sent, second := write(child), write(other)
	id := exampleParent[36:52]
	if sent[traceparent][:36] != exampleParent[:36] || sent[traceparent][52:] != exampleParent[52:] ||
		sent[tracestate] != exampleState || len(strings.Split(sent[baggageHeader], ",")) != 3 {
		t.Errorf("child: %v", sent)
	}
	if sent[traceparent][36:52] == id || sent[traceparent] == second[traceparent] || trace.SpanContextFromContext(child).IsRemote() {
		t.Errorf("ids: %v, %v", sent, second)
	}
}

func TestAChildWithoutAParentBeginsATrace(t *testing.T) {
	child := StartChild(context.Background())
	if sc := trace.SpanContextFromContext(child); !sc.IsValid() || sc.TraceFlags() != trace.FlagsSampled {
		t.Errorf("root: %v", sc)
	}
}
