"""Tests of the binding, with the examples of the W3C: python3 -m unittest, with OTEL_C_LIBRARY if the library isn't installed."""
import gc
import unittest

from otel_c import Context, Member, OtelError, Propagator, Span

# Headers of W3C trace-context-2 (sections 3.2 and 3.3) and of W3C baggage ("Example").
PARENT = "00-0af7651916cd43dd8448eb211c80319c-b7ad6b7169203331-01"
STATE = "rojo=00f067aa0ba902b7,congo=t61rcWkgMzE"
BAGGAGE = "userId=alice,serverNode=DF%2028,isProduction=false"
SPAN = Span("0af7651916cd43dd8448eb211c80319c", "b7ad6b7169203331", 1, STATE, True)


class Extracted(unittest.TestCase):
    def test_all_three_headers_are_read(self):
        context = Propagator().extract({"TraceParent": PARENT, "tracestate": STATE, "Baggage": BAGGAGE, "Host": "example.com"})
        self.assertEqual(context.span, SPAN)
        self.assertEqual(context.baggage, {"userId": Member("alice"), "serverNode": Member("DF 28"),
                                           "isProduction": Member("false")})

    def test_values_of_several_headers_are_joined(self):
        context = Propagator().extract({"traceparent": PARENT, "tracestate": STATE.split(",")})
        self.assertEqual(context.span, SPAN)

    def test_what_cannot_be_read_changes_nothing(self):
        for value in ("", "x", PARENT.replace("00-", "ff-", 1), PARENT.replace("00-", "01-", 1), "00-" + "0" * 32 + PARENT[35:],
                      PARENT.upper(), PARENT + "\n", "\u00e9", b"\xff"):
            self.assertIsNone(Propagator().extract({"traceparent": value}).span, value)
        self.assertIsNone(Propagator().extract({"traceparent": [PARENT, PARENT]}).span)

    def test_a_faulty_trace_state_is_empty(self):
        self.assertEqual(Propagator().extract({"traceparent": PARENT, "tracestate": "a"}).span.trace_state, "")

    def test_headers_are_read_into_a_context(self):
        first = Propagator().extract({"traceparent": PARENT})
        both = Propagator().extract({"baggage": BAGGAGE}, first)
        self.assertEqual(both.span.span_id, SPAN.span_id)
        self.assertEqual(len(both.baggage), 3)
        self.assertEqual(first.baggage, {})

    def test_a_value_longer_than_the_usual_buffer_is_read(self):
        context = Propagator().extract({"baggage": "k=" + "v" * 8000 + ";m"})
        self.assertEqual(context.baggage, {"k": Member("v" * 8000, "m")})


class Injected(unittest.TestCase):
    def test_a_context_is_sent_on(self):
        sent = {"TRACESTATE": "old=1", "Host": "example.com"}
        given = {"traceparent": PARENT, "tracestate": STATE, "baggage": BAGGAGE}
        Propagator().inject(Propagator().extract(given), sent)
        self.assertEqual(sent, {**given, "Host": "example.com"})

    def test_an_empty_context_removes_old_headers(self):
        sent = {"traceparent": PARENT, "Host": "example.com"}
        Propagator().inject(Context(), sent)
        self.assertEqual(sent, {"Host": "example.com"})

    def test_what_no_header_can_carry_is_refused(self):
        for wrong in ("\u00e9", "\x01", "a\nb"):
            with self.assertRaises(OtelError) as refused:
                Context().with_span(SPAN._replace(trace_state="a=" + wrong))
            self.assertEqual(refused.exception.status, 10)
            with self.assertRaises(OtelError) as refused:
                Context().with_member("k", "v", wrong)
            self.assertEqual(refused.exception.status, 10)

    def test_64_members_are_sent(self):
        context = Context()
        for at in range(64):
            context = context.with_member(f"k{at}", "\u00e9", "private")
        sent = {}
        Propagator().inject(context, sent)
        self.assertEqual(sent["baggage"], ",".join(f"k{at}=%C3%A9;private" for at in range(64)))
        with self.assertRaises(OtelError):
            context.with_member("k64", "")


class Changed(unittest.TestCase):
    def test_a_span_is_set(self):
        child = SPAN._replace(span_id="00f067aa0ba902b7", is_remote=False)
        self.assertEqual(Context().with_span(child).span, child)
        for wrong in (SPAN._replace(span_id="0"), SPAN._replace(trace_id="+" * 32), SPAN._replace(span_id="\u0661" * 16)):
            with self.assertRaises(ValueError):
                Context().with_span(wrong)

    def test_a_pair_of_the_trace_state_is_set(self):
        context = Propagator().extract({"traceparent": PARENT, "tracestate": STATE})
        self.assertEqual(context.with_trace_state_pair("congo", "1").span, SPAN._replace(trace_state="congo=1,rojo=00f067aa0ba902b7"))
        self.assertEqual(context.span, SPAN)
        for wrong in (("Congo", "1"), ("a", "1,2"), ("a", "\u00e9")):
            with self.assertRaises(OtelError):
                context.with_trace_state_pair(*wrong)

    def test_a_child_has_the_trace_of_its_parent(self):
        parent = Propagator().extract({"traceparent": PARENT, "tracestate": STATE, "baggage": BAGGAGE})
        child, other = parent.start_child(), parent.start_child()
        self.assertEqual(child.span, SPAN._replace(span_id=child.span.span_id, is_remote=False))
        self.assertEqual(len({SPAN.span_id, child.span.span_id, other.span.span_id}), 3)
        self.assertEqual(child.baggage, parent.baggage)

    def test_a_child_without_a_parent_begins_a_trace(self):
        root, other = Context().start_child().span, Context().start_child().span
        self.assertEqual(root, Span(root.trace_id, root.span_id, 1))
        self.assertNotEqual(root.trace_id, other.trace_id)

    def test_members_are_set_and_removed(self):
        context = Context().with_member("a", "1", " m ").with_member("b", "2")
        self.assertEqual(context.baggage, {"a": Member("1", "m"), "b": Member("2")})
        self.assertEqual(context.without_member("a").baggage, {"b": Member("2")})
        self.assertEqual(context.without_baggage().baggage, {})
        with self.assertRaises(OtelError):
            context.with_member("a b", "")

    def test_many_members_are_set_at_once(self):
        many = {f"k{at}": Member(f"\u00e9\0{at}", "m" * at) for at in range(62)}
        context = Context().with_member("k5", "old").with_member("first", "")
        self.assertEqual(context.with_members(many).baggage, {"k5": many["k5"], "first": Member(""), **many})
        self.assertEqual(context.with_members({}).baggage, context.baggage)
        for wrong in ({"a b": Member("")}, {"a": Member("", "\u00e9")}, {f"k{at}": Member("") for at in range(64)}):
            with self.assertRaises(OtelError):
                context.with_members(wrong)

    def test_objects_may_go_in_any_order(self):
        contexts = [Context().with_member("a", "1")]
        for at in range(100):
            contexts.append(contexts[-1].with_member(f"k{at % 60}", str(at)))
        del contexts[:-1]
        gc.collect()
        self.assertEqual(len(contexts[0].baggage), 61)


if __name__ == "__main__":
    unittest.main()
