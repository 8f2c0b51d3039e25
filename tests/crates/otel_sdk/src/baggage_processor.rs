//! The processor that copies baggage: which members, in which order, within which limits.
use opentelemetry::trace::{Span, SpanBuilder, SpanContext, Tracing};
use opentelemetry::{Context, Key, KeyValue, StringValue, Value};
use otel_sdk::error::{OTelSdkError, OTelSdkResult};
use otel_sdk::resource::Resource;
use otel_sdk::trace::{
    BaggageSpanProcessor, Build, Exports, FinishedSpans, InMemorySpanExporter, Losses, SdkSpan,
    SpanData, SpanLimits, SpanProcessor, TracingBuilder, WithExporter, WithProcessor,
};
use std::alloc::{AllocError, Global};
use std::default::Default;
use std::rc::Rc;
use std::test::Fail;
use test_support::{Member, baggage_of, span_data};

const MEMBERS: &[Member] = &[
    ("tenant", "acme", "ttl=30;private"),
    ("region", "eu west", ""),
    ("tier", "gold", ""),
];

fn context_of(alloc: Global, members: &[Member]) -> Result<Context, AllocError> {
    Context::new().with_baggage(alloc, baggage_of(alloc, members)?)
}

/// A processor that copies the members with these keys, or all for `*`.
fn processor(alloc: Global, keys: &[&'static str]) -> Result<BaggageSpanProcessor, AllocError> {
    if keys == ["*"].as_slice() {
        return Ok(BaggageSpanProcessor::all());
    }
    let mut listed = Vec::new(alloc);
    for key in keys {
        listed.push(Key::from(*key))?;
    }
    Ok(BaggageSpanProcessor::new(listed))
}

/// A span that begins with these attributes, within the limits.
fn span(
    alloc: Global,
    attributes: &[(&'static str, &'static str)],
    limits: SpanLimits,
) -> Result<SdkSpan, AllocError> {
    let mut given = span_data(alloc, 1, 1)?;
    for (key, value) in attributes {
        given
            .attributes
            .push(KeyValue::new(Key::from(*key), Value::from(*value)))?;
    }
    SdkSpan::new(alloc, given, limits)
}

/// The attributes, as `key=value;`. A value that isn't a string is `?`.
fn shown(alloc: Global, attributes: &[KeyValue]) -> Result<String, AllocError> {
    let mut text = String::new(alloc);
    for attribute in attributes {
        text.push_str(attribute.key.as_str())?;
        text.push('=')?;
        text.push_str(match &attribute.value {
            Value::String(value) => value.as_str(),
            _ => "?",
        })?;
        text.push(';')?;
    }
    Ok(text)
}

/// The attributes that a span without any gets under a context with these members.
fn copied(alloc: Global, keys: &[&'static str], members: &[Member]) -> Result<String, Fail> {
    let mut processor = processor(alloc, keys)?;
    let mut span = span(alloc, &[], SpanLimits::default())?;
    processor.on_start(alloc, &mut span, &context_of(alloc, members)?);
    let Some(data) = span.data() else {
        return Err(Fail::from("no data"));
    };
    if processor.missed_members() != 0 {
        return Err(Fail::from("a member was missed"));
    }
    Ok(shown(alloc, data.attributes.as_slice())?)
}

#[test]
fn chosen_members_become_attributes_in_the_order_of_the_baggage(
    rt: HostRuntime,
) -> Result<(), Fail> {
    let rows: &[(&[&'static str], &str)] = &[
        (&["tenant"], "tenant=acme;"),
        (&["region"], "region=eu west;"),
        (&["tier", "user", "tenant"], "tenant=acme;tier=gold;"),
        (&["tier", "tier"], "tier=gold;"),
        (&["Tenant", "ten", "tenants", ""], ""),
        (&[], ""),
        (&["*"], "tenant=acme;region=eu west;tier=gold;"),
    ];
    for (keys, wanted) in rows {
        assert_eq!(rt; copied(rt.alloc(), *keys, MEMBERS)?.as_str(), *wanted);
    }
    Ok(())
}

#[test]
fn a_key_given_twice_is_copied_once_with_its_last_value(rt: HostRuntime) -> Result<(), Fail> {
    let members: &[Member] = &[("a", "1", ""), ("b", "2", "x"), ("a", "3", "")];
    assert_eq!(rt; copied(rt.alloc(), &["*"], members)?.as_str(), "a=3;b=2;");
    assert_eq!(rt; copied(rt.alloc(), &["a"], members)?.as_str(), "a=3;");
    Ok(())
}

#[test]
fn values_are_copied_as_they_are(rt: HostRuntime) -> Result<(), Fail> {
    let members: &[Member] = &[("a", "", ""), ("b", "x,y;z=%41", ""), ("c", "\u{e9}\n", "")];
    let wanted = "a=;b=x,y;z=%41;c=\u{e9}\n;";
    assert_eq!(rt; copied(rt.alloc(), &["*"], members)?.as_str(), wanted);
    Ok(())
}

#[test]
fn an_empty_baggage_adds_nothing(rt: HostRuntime) -> Result<(), Fail> {
    let alloc = rt.alloc();
    assert_eq!(rt; copied(alloc, &["*"], &[])?.as_str(), "");
    let mut span = span(alloc, &[], SpanLimits::default())?;
    BaggageSpanProcessor::all().on_start(alloc, &mut span, &Context::new());
    assert!(rt; span.data().is_some_and(|data| data.attributes.is_empty()));
    Ok(())
}

/// Attributes are set as by `set_attribute`: a key that the span has keeps its place, the first new
/// ones up to the limit are added, the others counted, and values truncated.
#[test]
fn attributes_are_set_within_the_limits(rt: HostRuntime) -> Result<(), Fail> {
    let alloc = rt.alloc();
    let limits = SpanLimits {
        max_attributes_per_span: 3,
        max_attribute_length: Some(2),
        ..SpanLimits::default()
    };
    let given = [("tier", "none"), ("own", "kept")];
    let mut span = span(alloc, &given, limits)?;
    let mut processor = BaggageSpanProcessor::all();
    processor.on_start(alloc, &mut span, &context_of(alloc, MEMBERS)?);
    let Some(data) = span.data() else {
        return Err(Fail::from("no data"));
    };
    assert_eq!(rt;
        shown(alloc, data.attributes.as_slice())?.as_str(),
        "tier=go;own=ke;tenant=ac;"
    );
    assert_eq!(rt; data.dropped_attributes_count, 1);
    assert_eq!(rt; processor.missed_members(), 0);
    Ok(())
}

#[test]
fn a_span_that_does_not_record_gets_none(rt: HostRuntime) -> Result<(), Fail> {
    let alloc = rt.alloc();
    let mut processor = BaggageSpanProcessor::all();
    let parent = context_of(alloc, MEMBERS)?;
    let mut without_data = SdkSpan::without_data(SpanContext::NONE);
    processor.on_start(alloc, &mut without_data, &parent);
    assert!(rt; without_data.data().is_none());
    let mut ended = span(alloc, &[], SpanLimits::default())?;
    ended.end(2);
    processor.on_start(alloc, &mut ended, &parent);
    assert!(rt; ended.data().is_some_and(|data| data.attributes.is_empty()));
    assert_eq!(rt; processor.missed_members(), 0);
    Ok(())
}

#[test]
fn the_processor_keeps_nothing(rt: HostRuntime) -> Result<(), Fail> {
    let alloc = rt.alloc();
    let mut processor = processor(alloc, &["tenant"])?;
    assert!(rt; !processor.keeps_ended());
    processor.reserve(3)?;
    processor.on_end(span_data(alloc, 1, 1)?);
    processor.on_loss(&span_data(alloc, 2, 1)?);
    assert_eq!(rt;
        (processor.queued_spans(), processor.dropped_spans()),
        (0, 0)
    );
    for _ in 0..2 {
        processor.force_flush()?;
        processor.shutdown()?;
        assert!(rt; processor.is_shut_down());
    }
    processor.set_resource(&Rc::new(alloc, Resource::builder_empty(alloc).build())?)?;
    // It goes on to copy: only the exporters are shut down.
    let mut span = span(alloc, &[], SpanLimits::default())?;
    processor.on_start(alloc, &mut span, &context_of(alloc, MEMBERS)?);
    assert!(rt; span.data().is_some_and(|data| data.attributes.len() == 1));
    Ok(())
}

/// A processor that writes down the attributes that each span has when it begins.
#[derive(Drop)]
struct Begun {
    log: String,
}

impl SpanProcessor for Begun {
    ghost use Rattle.std.specs.Prelude.{None, false, true};
    ghost use Rattle.otel_sdk_base.specs.Losses.{none};

    ghost calls = { record {
      starts = λ _ _ _ _ _. Unit {0};
      ends = λ _ _ _. Unit {0};
      loses = λ _ _ _. Unit {0};
      flushes = λ _ _ _. Unit {0};
      shuts_down = λ _ _ _. Unit {0};
      takes_resource = λ _ _ _. Unit {0};
      keeps_ended = λ _. false;
      is_shut_down = λ _. true;
      IsEmpty = λ _. Unit {0};
      dropped = λ _. 0;
      queued = λ _. 0;
      losses = λ _. none;
      last_message = λ _. None;
      AccountsFor = λ _ _. Unit {0};
    } };

    fn on_start(&mut self, alloc: Global, span: &mut SdkSpan, _parent: &Context) {
        if let Some(data) = span.data() {
            if let Ok(text) = shown(alloc, data.attributes.as_slice()) {
                drop(self.log.push_str(text.as_str()));
            }
        }
        drop(self.log.push('|'));
    }

    fn keeps_ended(&self) -> bool {
        false
    }

    fn on_end(&mut self, _span: SpanData) {}

    fn on_loss(&mut self, _span: &SpanData) {}

    fn force_flush(&mut self) -> OTelSdkResult {
        Ok(())
    }

    fn shutdown(&mut self) -> OTelSdkResult {
        Ok(())
    }

    fn is_shut_down(&self) -> bool {
        true
    }

    fn dropped_spans(&self) -> u64 {
        0
    }

    fn queued_spans(&self) -> usize {
        0
    }

    fn losses(&self) -> Losses {
        Losses::default()
    }

    fn last_message(&self) -> Option<&str> {
        None
    }

    fn set_resource(&mut self, _resource: &Rc<Resource>) -> Result<(), AllocError> {
        Ok(())
    }
}

/// A service that exports the tenant and the region of each request with its spans.
#[test]
fn spans_of_a_request_have_its_baggage(rt: HostRuntime) -> Result<(), Fail> {
    let alloc = rt.alloc();
    let keys = vec![in alloc; Key::from("tenant"), Key::from("region")]?;
    let builder = TracingBuilder::new(rt).with_processor(BaggageSpanProcessor::new(keys));
    let mut tracing = builder
        .counted(1)
        .with_processor(Begun {
            log: String::new(alloc),
        })
        .with_exporter(InMemorySpanExporter::new(alloc))
        .build(alloc, "cart")?;

    let request = tracing.attach(context_of(alloc, MEMBERS)?)?;
    let serve = tracing.enter("serve")?;
    let mut given = Vec::new(alloc);
    given.push(KeyValue::new(Key::from("region"), Value::from("unknown")))?;
    given.push(KeyValue::new(Key::from("items"), Value::I64(2)))?;
    let price = SpanBuilder::from_name(StringValue::from("price")).with_attributes(given);
    let price = tracing.enter_with(price)?;
    tracing.exit(price);
    tracing.exit(serve);
    tracing.detach(request);
    let idle = tracing.enter("idle")?;
    tracing.exit(idle);
    tracing.flush()?;

    let exporter = tracing.processors().1.exporter();
    let mut exported = String::new(alloc);
    for span in &exporter.get_finished_spans()? {
        let attributes = shown(alloc, span.attributes.as_slice())?;
        exported.push_str(span.name.as_str())?;
        exported.push_str(" ")?;
        exported.push_str(attributes.as_str())?;
        exported.push_str("|")?;
    }
    assert_eq!(rt;
        exported.as_str(),
        "price region=eu west;items=?;tenant=acme;|serve tenant=acme;region=eu west;|idle |"
    );
    // The processor after it sees the attributes when a span begins.
    let processors = &tracing.processors().0;
    assert_eq!(rt;
        processors.1.log.as_str(),
        "tenant=acme;region=eu west;|region=eu west;items=?;tenant=acme;||"
    );
    assert_eq!(rt; processors.0.1.missed_members(), 0);
    assert_eq!(rt; tracing.shutdown()?, 0);
    assert!(rt; matches!(tracing.shutdown(), Err(OTelSdkError::AlreadyShutdown)));
    tracing.accounts();
    Ok(())
}
