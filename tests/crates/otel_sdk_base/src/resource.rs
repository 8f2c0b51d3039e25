//! Building and merging resources, with worked cases.
use otel_base::{Key, KeyValue, StringValue, Value};
use otel_sdk_base::resource::{Resource, ResourceBuilder};
use std::alloc::{AllocError, Global};
use std::test::Fail;

fn attribute(key: &'static str, value: &'static str) -> KeyValue {
    KeyValue::new(Key::from(key), Value::from(value))
}

/// A builder with only these attributes.
fn builder(
    alloc: Global,
    attributes: &[(&'static str, &'static str)],
) -> Result<ResourceBuilder, AllocError> {
    let mut given = Vec::new(alloc);
    for (key, value) in attributes {
        given.push(attribute(key, value))?;
    }
    Resource::builder_empty(alloc).with_attributes(given)
}

/// The attributes as `key=value`, each after a space.
fn shown(alloc: Global, resource: &Resource) -> Result<String, AllocError> {
    let mut text = String::new(alloc);
    for attribute in resource.attributes() {
        text.push(' ')?;
        text.push_str(attribute.key.as_str())?;
        text.push('=')?;
        text.push_str(attribute.value.as_str(alloc)?.as_str())?;
    }
    Ok(text)
}

#[test]
fn defaults_are_there(rt: HostRuntime) -> Result<(), Fail> {
    let alloc = rt.alloc();
    let resource = Resource::builder(alloc)?
        .with_service_name(StringValue::from("cart"))?
        .build();
    assert_eq!(rt;
        shown(alloc, &resource)?.as_str(),
        " service.name=cart telemetry.sdk.language=rattle telemetry.sdk.name=otel_sdk telemetry.sdk.version=0.1.0"
    );
    assert_eq!(rt; resource.len(), 4);
    assert!(rt; resource.schema_url().is_none());
    Ok(())
}

#[test]
fn a_key_that_is_there_keeps_its_place(rt: HostRuntime) -> Result<(), Fail> {
    let alloc = rt.alloc();
    let resource = builder(alloc, &[("a", "1"), ("b", "2")])?
        .with_attribute(attribute("a", "3"))?
        .build();
    assert_eq!(rt; shown(alloc, &resource)?.as_str(), " a=3 b=2");
    assert!(rt; !resource.is_empty());
    assert!(rt; Resource::builder_empty(alloc).build().is_empty());
    Ok(())
}

#[test]
fn the_updating_resource_wins(rt: HostRuntime) -> Result<(), Fail> {
    let alloc = rt.alloc();
    let old = builder(alloc, &[("a", "1"), ("b", "2")])?.build();
    let updating = builder(alloc, &[("b", "3"), ("c", "4")])?.build();
    let merged = old.merge(updating)?;
    assert_eq!(rt; shown(alloc, &merged)?.as_str(), " a=1 b=3 c=4");
    let old = builder(alloc, &[("a", "1")])?.build();
    let merged = old.merge(builder(alloc, &[("a", "")])?.build())?;
    assert_eq!(rt; shown(alloc, &merged)?.as_str(), " a=");
    Ok(())
}

/// The schema URLs of two resources and of the merged one. An empty text means none.
const URLS: [(&'static str, &'static str, &'static str); 5] = [
    ("", "", ""),
    ("", "u", "u"),
    ("u", "", "u"),
    ("u", "u", "u"),
    ("u", "v", ""),
];

/// A resource with only this schema URL.
fn of_url(alloc: Global, url: &'static str) -> Resource {
    Resource::builder_empty(alloc)
        .with_schema_url(StringValue::from(url))
        .build()
}

#[test]
fn schema_urls_merge(rt: HostRuntime) -> Result<(), Fail> {
    let alloc = rt.alloc();
    for (old, updating, merged) in URLS {
        let resource = of_url(alloc, old).merge(of_url(alloc, updating))?;
        assert_eq!(rt; resource.schema_url().unwrap_or(""), merged);
    }
    Ok(())
}

/// Reads the texts. Shows the attributes and the number of the faulty piece.
fn read(
    alloc: Global,
    attributes: &str,
    service_name: &str,
) -> Result<(String, Option<usize>), AllocError> {
    let (resource, error) = Resource::from_texts(alloc, attributes, service_name)?;
    Ok((shown(alloc, &resource)?, error.map(|error| error.piece)))
}

#[test]
fn texts_are_read(rt: HostRuntime) -> Result<(), Fail> {
    let alloc = rt.alloc();
    let rows = [
        ("key=value, k = v , a= x, a=z", "", " key=value k=v a=z"),
        ("a=b%2Cc%3dd", "", " a=b,c=d"),
        ("a%20b=c", "", " a b=c"),
        ("a=%20", "", " a= "),
        ("a=1+1", "", " a=1+1"),
        ("a=1=2", "", " a=1=2"),
        ("a=", "", " a="),
        ("a=1,,b=2,", "", " a=1 b=2"),
        ("", "", ""),
        ("   ", "", ""),
        ("service.name=x,k=v", " bar ", " service.name=bar k=v"),
        ("service.name=x,k=v", " ", " service.name=x k=v"),
    ];
    for (attributes, service_name, wanted) in rows {
        let (text, fault) = read(alloc, attributes, service_name)?;
        assert_eq!(rt; text.as_str(), wanted);
        assert_eq!(rt; fault, None);
    }
    Ok(())
}

#[test]
fn a_faulty_piece_costs_all_attributes(rt: HostRuntime) -> Result<(), Fail> {
    let alloc = rt.alloc();
    for attributes in ["a=1,b", "a=1,=x", "a=1,b=%f", "a=1,b=%ff"] {
        let (text, fault) = read(alloc, attributes, "")?;
        assert_eq!(rt; text.as_str(), "");
        assert_eq!(rt; fault, Some(1));
    }
    let (text, fault) = read(alloc, "a", "bar")?;
    assert_eq!(rt; text.as_str(), " service.name=bar");
    assert_eq!(rt; fault, Some(0));
    Ok(())
}

#[test]
fn code_wins_over_texts(rt: HostRuntime) -> Result<(), Fail> {
    let alloc = rt.alloc();
    let (texts, _) = Resource::from_texts(alloc, "service.name=x", "")?;
    let code = Resource::builder_empty(alloc)
        .with_service_name(StringValue::from("y"))?
        .build();
    let resource = Resource::builder(alloc)?.build().merge(texts)?.merge(code)?;
    let name = resource
        .get("service.name")
        .map(|name| name.as_str(alloc))
        .transpose()?;
    assert!(rt; name.is_some_and(|name| name.as_str() == "y"));
    assert!(rt; resource.get("service").is_none());
    Ok(())
}

#[test]
fn a_service_is_named_only_if_none_is(rt: HostRuntime) -> Result<(), Fail> {
    let alloc = rt.alloc();
    let rows = [
        ("", "", " service.name=cart"),
        ("k=v", "", " k=v service.name=cart"),
        ("", "unknown_service", " service.name=cart"),
        ("service.name=shop", "", " service.name=shop"),
        ("", "shop", " service.name=shop"),
    ];
    for (attributes, service_name, wanted) in rows {
        let (resource, _) = Resource::from_texts(alloc, attributes, service_name)?;
        let named = resource.for_service(StringValue::from("cart"))?;
        assert!(rt; named.names_service());
        assert_eq!(rt; shown(alloc, &named)?.as_str(), wanted);
    }
    let number = KeyValue::new(Key::from("service.name"), Value::I64(1));
    let resource = Resource::builder(alloc)?.with_attribute(number)?.build();
    assert!(rt;
        resource
            .for_service(StringValue::from("cart"))?
            .names_service()
    );
    assert!(rt; !Resource::builder(alloc)?.build().names_service());
    Ok(())
}
