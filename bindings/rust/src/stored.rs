//! Stored information of version 1, as a `Value` of `serde_json`.

use crate::documents::convert;
use serde_json::{json, Map, Value};

/// Converts the information of one module from version 1 to version 2, in place: each dependency gets the types that
/// `@deno-types` in the last of its `leadingComments` names, and loses these comments. Any other JSON stays as it is.
///
/// A dependency also stays as it is if its types end after column 2^64 - 1, or an allocation of the library fails.
pub fn module_graph_1_to_2(module_info: &mut Value) {
    let dependencies = module_info
        .get_mut("dependencies")
        .and_then(Value::as_array_mut);
    for dependency in dependencies.into_iter().flatten() {
        if let Some(dependency) = dependency.as_object_mut() {
            convert_dependency(dependency);
        }
    }
}

/// Converts a dependency that has comments.
fn convert_dependency(dependency: &mut Map<String, Value>) {
    let comments = dependency.get("leadingComments").and_then(Value::as_array);
    if let Some(converted) = comments.and_then(|comments| converted(comments)) {
        dependency.remove("leadingComments");
        dependency.extend(converted);
    }
}

/// The members that the library has in place of these comments: none, or `typesSpecifier`. `None` if the comments stay.
fn converted(comments: &[Value]) -> Option<Map<String, Value>> {
    // What nothing reads is left out, since the library takes no float, and a comment may have one.
    let comments: Vec<Value> = comments
        .iter()
        .map(|comment| Some(json!({"text": comment.get("text")?, "range": comment.get("range")?})))
        .collect::<Option<_>>()?;
    let document = json!({"dependencies": [{"leadingComments": comments}]}).to_string();
    let answer = convert(document.as_bytes()).ok()?;
    let dependency = answer["dependencies"][0].as_object()?;
    (!dependency.contains_key("leadingComments")).then(|| dependency.clone())
}
