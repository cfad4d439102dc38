//! SARIF 2.1.0: the format in which code hosts take findings, and show them at the source line.

use dwcheck_elf::lines::SourceLine;
use serde_json::{json, Value};
use std::path::{Path, PathBuf};

/// The version of the format, and where its schema is.
const VERSION: &str = "2.1.0";
const SCHEMA: &str = "https://json.schemastore.org/sarif-2.1.0.json";

/// The whole document of a run, with the rules that its results may name.
pub fn sarif_document(results: Vec<Value>, rules: Vec<Value>, properties: Value) -> Value {
    json!({
        "$schema": SCHEMA,
        "version": VERSION,
        "runs": [{
            "tool": { "driver": { "name": "dwcheck-elf", "version": env!("CARGO_PKG_VERSION"), "rules": rules } },
            "results": results,
            "properties": properties,
        }],
    })
}

/// Where a result is: at a source line, or at an address of the program if the line isn't known. The `uri` is the path
/// of the source file, or empty for the program.
pub fn sarif_location(address: Option<u64>, line: Option<&SourceLine>) -> Value {
    if let Some(SourceLine { file, line: Some(line), column }) = line {
        let mut region = json!({ "startLine": line });
        if let Some(column) = column {
            region["startColumn"] = json!(column);
        }
        return json!({ "artifactLocation": { "uri": file }, "region": region });
    }
    let mut place = json!({ "artifactLocation": { "uri": "" }, "region": { "startLine": 1 } });
    if let Some(address) = address {
        place["address"] = json!({ "absoluteAddress": address });
    }
    place
}

/// A result that was made without the file, for this file: its path is put where the result is and among its properties,
/// and its name before each fingerprint.
pub fn result_in_file(result: &Value, path: &Path) -> Value {
    let mut result = result.clone();
    if let Some(uri) = result.pointer_mut("/locations/0/physicalLocation/artifactLocation/uri") {
        let source = uri.as_str().filter(|source| !source.is_empty()).map(PathBuf::from);
        *uri = json!(file_uri(source.as_deref().unwrap_or(path)));
    }
    if let Some(file) = result.pointer_mut("/properties/file") {
        *file = json!(path.to_string_lossy());
    }
    let name = path.file_name().map_or_else(String::new, |name| name.to_string_lossy().into_owned());
    let fingerprints = result.get_mut("partialFingerprints").and_then(Value::as_object_mut);
    for (_, fingerprint) in fingerprints.into_iter().flatten() {
        *fingerprint = json!(format!("{}: {}", name, fingerprint.as_str().unwrap_or_default()));
    }
    result
}

/// A path as a URI: relative to the current folder if it is below that, as code hosts want it.
fn file_uri(path: &Path) -> String {
    let here = std::env::current_dir().ok();
    let below = here.and_then(|here| path.strip_prefix(here).ok().map(Path::to_path_buf));
    let path = below.as_deref().unwrap_or(path).to_string_lossy().into_owned();
    let is_plain = |byte: u8| byte.is_ascii_alphanumeric() || b"/-._~+".contains(&byte);
    let escaped = |byte: u8| if is_plain(byte) { char::from(byte).to_string() } else { format!("%{:02X}", byte) };
    let path: String = path.bytes().map(escaped).collect();
    if path.starts_with('/') {
        format!("file://{}", path)
    } else {
        path
    }
}
