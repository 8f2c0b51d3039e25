//! Each constant is the name in the registry of the semantic conventions.
#![tactic(auto)]

use otel_semantic_conventions::attribute;
use std::process::Abort;
use std::test::Fail;

/// The constants, with the names of the registry.
const NAMES: &[(&str, &str)] = &[
    (attribute::HTTP_REQUEST_METHOD, "http.request.method"),
    (
        attribute::HTTP_REQUEST_METHOD_ORIGINAL,
        "http.request.method_original",
    ),
    (
        attribute::HTTP_REQUEST_RESEND_COUNT,
        "http.request.resend_count",
    ),
    (
        attribute::HTTP_RESPONSE_STATUS_CODE,
        "http.response.status_code",
    ),
    (attribute::HTTP_ROUTE, "http.route"),
    (attribute::USER_AGENT_ORIGINAL, "user_agent.original"),
    (attribute::URL_FULL, "url.full"),
    (attribute::URL_SCHEME, "url.scheme"),
    (attribute::URL_PATH, "url.path"),
    (attribute::URL_QUERY, "url.query"),
    (attribute::URL_FRAGMENT, "url.fragment"),
    (attribute::SERVER_ADDRESS, "server.address"),
    (attribute::SERVER_PORT, "server.port"),
    (attribute::CLIENT_ADDRESS, "client.address"),
    (attribute::CLIENT_PORT, "client.port"),
    (attribute::NETWORK_PROTOCOL_NAME, "network.protocol.name"),
    (
        attribute::NETWORK_PROTOCOL_VERSION,
        "network.protocol.version",
    ),
    (attribute::NETWORK_TRANSPORT, "network.transport"),
    (attribute::NETWORK_TYPE, "network.type"),
    (attribute::NETWORK_LOCAL_ADDRESS, "network.local.address"),
    (attribute::NETWORK_LOCAL_PORT, "network.local.port"),
    (attribute::NETWORK_PEER_ADDRESS, "network.peer.address"),
    (attribute::NETWORK_PEER_PORT, "network.peer.port"),
    (attribute::ERROR_TYPE, "error.type"),
    (attribute::EXCEPTION_TYPE, "exception.type"),
    (attribute::EXCEPTION_MESSAGE, "exception.message"),
    (attribute::EXCEPTION_STACKTRACE, "exception.stacktrace"),
    (attribute::EXCEPTION_ESCAPED, "exception.escaped"),
    (attribute::SERVICE_NAME, "service.name"),
    (attribute::SERVICE_VERSION, "service.version"),
    (attribute::TELEMETRY_SDK_NAME, "telemetry.sdk.name"),
    (attribute::TELEMETRY_SDK_LANGUAGE, "telemetry.sdk.language"),
    (attribute::TELEMETRY_SDK_VERSION, "telemetry.sdk.version"),
    (attribute::DB_SYSTEM_NAME, "db.system.name"),
    (attribute::DB_NAMESPACE, "db.namespace"),
    (attribute::DB_COLLECTION_NAME, "db.collection.name"),
    (attribute::DB_OPERATION_NAME, "db.operation.name"),
    (
        attribute::DB_OPERATION_BATCH_SIZE,
        "db.operation.batch.size",
    ),
    (attribute::DB_QUERY_TEXT, "db.query.text"),
    (attribute::DB_QUERY_SUMMARY, "db.query.summary"),
    (
        attribute::DB_RESPONSE_STATUS_CODE,
        "db.response.status_code",
    ),
    (
        attribute::DB_STORED_PROCEDURE_NAME,
        "db.stored_procedure.name",
    ),
    (attribute::CODE_FUNCTION_NAME, "code.function.name"),
    (attribute::CODE_FILE_PATH, "code.file.path"),
    (attribute::CODE_LINE_NUMBER, "code.line.number"),
    (attribute::CODE_COLUMN_NUMBER, "code.column.number"),
    (attribute::CODE_STACKTRACE, "code.stacktrace"),
    (attribute::OTEL_SCOPE_NAME, "otel.scope.name"),
    (attribute::OTEL_SCOPE_VERSION, "otel.scope.version"),
    (attribute::OTEL_STATUS_CODE, "otel.status_code"),
    (
        attribute::OTEL_STATUS_DESCRIPTION,
        "otel.status_description",
    ),
];

#[test]
fn each_name_is_the_one_of_the_registry(rt: HostRuntime) -> Result<(), Fail> {
    for (constant, name) in NAMES {
        assert_eq!(rt; *constant, *name);
    }
    Ok(())
}
