//! All short pointers over some alphabets, each in some texts that have much for them to find.

use crate::group::{Group, Test};

pub const TESTS: [Test; 4] = [
    ("all pointers of up to 2 bytes, and all tokens of 2 bytes", bytes),
    ("all pointers of up to 6 bytes of pairs", |group| every(group, b"/~01a", 6, &PAIRS)),
    ("all pointers of up to 6 bytes of indices", |group| every(group, b"/0129-", 6, &INDICES)),
    ("all pointers of up to 5 telling bytes", |group| every(group, b"/~0-a\"\\\x7f\x80", 5, &TELLING)),
];

const PAIRS: [&str; 3] = [
    r#"{"~":{"/":1,"~1":2,"":3},"/":["~",{"a":1}],"a":{"~":{},"0":[0]},"01":5,"~0":6,"~1":[7,[8]],"/0":9,"":{"":{}}}"#,
    r#"[{"~":[1,{"0":2}],"/":3,"a/":4,"~a":5,"1":[6]},[{"~":7},{"/":[8]}],"~"]"#,
    r#"{"a/0":1,"a~0":2,"a~1":3,"a":{"0":{"1":4}},"~~":5,"//":6,"/~":7,"~/":8,"~01":9,"10":0}"#,
];
const INDICES: [&str; 3] = [
    "[[0,1,2,3],[[],[9]],0,{\"0\":1,\"00\":2,\"-\":[3],\"\":4},5,6,7,8,[9],[[],10],11,[12],13]",
    r#"{"0":[[1],[2,[3,4]]],"1":{"0":5,"9":[6]},"01":[7],"-1":[8],"":[[[9]]],"10":0,"2":[0,1,2,3,4,5,6,7,8,[9]]}"#,
    "[[[[1,2],[3]],[]],-0]",
];
const TELLING: [&str; 1] = [r#"{"a":{"\"":[1],"\\":{"\u007F":2}},"-":[3,{"~":4}],"\u0080":5,"~":{"-":6},"":[[7]]}"#];

fn bytes(group: &mut Group) {
    let indices: Vec<String> = (0..120).map(|index| index.to_string()).collect();
    let array = format!("[{}]", indices.join(","));
    let names = "{\"aa\":1,\"\x7f\\u007f\":2,\"~\":3,\"/\":{\"\":4},\"\\n\\t\":5,\"1:\":6,\"a\":{\"\":7},\"\":[8]}";
    for text in [&array, names] {
        let one = (0..=255).map(|byte| vec![byte]);
        let two = (0..=0xFFFF_u16).map(|pair| pair.to_be_bytes().to_vec());
        group.find_each(text.as_bytes(), one.chain(two));
        let tokens = (0..=0xFFFF_u16).map(|pair| [&b"/"[..], &pair.to_be_bytes()].concat());
        group.find_each(text.as_bytes(), tokens);
    }
}

/// Compares all pointers of up to this many bytes of the alphabet.
fn every(group: &mut Group, alphabet: &[u8], length: usize, texts: &[&str]) {
    let mut pointers = Vec::new();
    extend(&mut pointers, &mut Vec::new(), alphabet, length);
    for text in texts {
        group.find_each(text.as_bytes(), &pointers);
    }
}

fn extend(all: &mut Vec<Vec<u8>>, pointer: &mut Vec<u8>, alphabet: &[u8], length: usize) {
    all.push(pointer.clone());
    if length == 0 {
        return;
    }
    for &byte in alphabet {
        pointer.push(byte);
        extend(all, pointer, alphabet, length - 1);
        pointer.pop();
    }
}
