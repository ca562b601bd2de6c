//! Values of every kind as target and as patch, at the top, in objects and in arrays.

use crate::group::{Group, Test};

pub const TESTS: [Test; 4] = [
    ("targets and patches of every kind", whole),
    ("members of every kind", members),
    ("members of every kind among others", among),
    ("elements of every kind", elements),
];

const VALUES: [&str; 30] = [
    "null",
    "true",
    "false",
    "0",
    "-1.50",
    "12e3",
    r#""""#,
    r#""a""#,
    r#""\n\u00E9""#,
    "[]",
    "[null]",
    "[1,[null],{}]",
    r#"[{"a":null}]"#,
    r#"[{"b":1,"a":2}]"#,
    "{}",
    r#"{"a":null}"#,
    r#"{"b":null}"#,
    r#"{"a":1}"#,
    r#"{"b":2,"a":1}"#,
    r#"{"b":2,"a":null}"#,
    r#"{"a":{}}"#,
    r#"{"a":[]}"#,
    r#"{"a":{"a":null}}"#,
    r#"{"a":{"a":1,"b":null}}"#,
    r#"{"a":{"b":{"a":null}}}"#,
    r#"{"a":[null,{"b":null}]}"#,
    r#"{"a":{"b":[{"a":null}]}}"#,
    r#"{"b":{"a":null},"a":{"b":2}}"#,
    r#"{"c":{"c":{"c":null}},"a":{"c":1},"b":{}}"#,
    r#"{"":{"":""},"a":"","c":null}"#,
];

fn each(mut visit: impl FnMut(&str, &str)) {
    for target in VALUES {
        for patch in VALUES {
            visit(target, patch);
        }
    }
}

fn whole(group: &mut Group) {
    each(|target, patch| group.merge(target, patch));
    each(|target, patch| group.merge(format!(" {target}\n"), format!("\t{patch} \r")));
}

fn members(group: &mut Group) {
    each(|target, patch| {
        group.merge(format!("{{\"m\":{target}}}"), format!("{{\"m\":{patch}}}"));
        group.merge(format!("{{\"m\":{target}}}"), format!("{{\"n\":{patch}}}"));
        group.merge(format!("{{\"n\":{target}}}"), format!("{{\"m\":{patch}}}"));
        group.merge(format!("{{\"m\":{{\"n\":{target}}}}}"), format!("{{\"m\":{{\"n\":{patch}}}}}"));
    });
}

/// Members before and behind, which the other text has too or not, and as another kind.
fn among(group: &mut Group) {
    each(|target, patch| {
        let around = format!("{{\"z\":{{\"y\":1}},\"m\":{target},\"c\":null}}");
        group.merge(&around, format!("{{\"m\":{patch},\"z\":{{\"x\":null}}}}"));
        group.merge(&around, format!("{{\"n\":{patch},\"c\":{{\"x\":null}},\"b\":{target}}}"));
        group.merge(&around, format!("{{\"z\":{patch},\"m\":{target},\"a\":{patch}}}"));
    });
}

/// An array of the patch is taken as it is, whatever stands in the target.
fn elements(group: &mut Group) {
    each(|target, patch| {
        group.merge(format!("[{target}]"), format!("[{patch}]"));
        group.merge(format!("{{\"m\":[{target}]}}"), format!("{{\"m\":[{patch},{target}]}}"));
        group.merge(format!("{{\"m\":[{target},{{\"n\":{patch}}}]}}"), format!("{{\"m\":{{\"n\":[{patch}]}}}}"));
    });
}
