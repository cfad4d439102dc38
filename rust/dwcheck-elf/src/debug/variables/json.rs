//! Writes variables as JSON.

use super::{Function, Missing, Value, Variable};
use serde_json::{json, Value as Json};

impl Function {
    /// The function with its variables, as an object. docs/OUTPUT.md lists its keys.
    pub fn json(&self) -> Json {
        let variables: Vec<_> = self.variables.iter().map(Variable::json).collect();
        json!({
            "name": self.name,
            "source": self.source,
            "inlined": self.is_inlined,
            "variables": variables,
        })
    }
}

impl Variable {
    fn json(&self) -> Json {
        let missing = self.value.as_ref().err().map(Missing::to_string);
        json!({
            "name": self.name,
            "parameter": self.is_parameter,
            "type": self.type_name,
            "location": self.place.as_ref().ok().map(ToString::to_string),
            "value": self.value.as_ref().ok().map(value_as_json),
            "missing": missing,
        })
    }
}

/// What a structure has beside its members if some of them aren't shown. No member has a name with a space.
const MORE_MEMBERS: &str = "more members";

/// A value: a text, an object with the members, or an array with the elements. What is missing is `null`.
fn value_as_json(of: &Value) -> Json {
    let part = |part: &Result<Value, Missing>| part.as_ref().map_or(Json::Null, value_as_json);
    match of {
        Value::Scalar(text) => json!(text),
        Value::Text { address, text, .. } => json!({ "address": address, "text": text }),
        Value::Pointer(name, of) => json!({ "points_to": name, "value": value_as_json(of) }),
        Value::Reference(address, of) => json!({ "address": address, "value": part(of) }),
        Value::Members(members, more) => {
            let more = (*more > 0).then(|| (MORE_MEMBERS.to_string(), json!(more)));
            members.iter().map(|(name, member)| (name.clone(), part(member))).chain(more).collect()
        }
        Value::Elements(elements, more) => elements.iter().map(part).chain(more_elements(*more)).collect(),
        Value::Entries(entries, more) => {
            let entry = |(key, value): &(_, _)| json!({ "key": part(key), "value": part(value) });
            entries.iter().map(entry).chain(more_elements(*more)).collect()
        }
        Value::Shared { value, uses, weak } => {
            json!({ "pointer": value_as_json(value), "use_count": uses, "weak_count": weak })
        }
        Value::Deeper => Json::Null,
    }
}

/// What is last in a list of which some elements aren't shown. The number is one of JSON, which no value is.
fn more_elements(more: u64) -> Option<Json> {
    (more > 0).then(|| json!({ "more": more }))
}
