//! The records of a value. 01 "The record table".

/// A value of a text: its bytes, its name's opening quote, and the values right inside it in order.
pub struct Value {
    pub start: usize,
    pub end: usize,
    pub name: Option<usize>,
    pub children: Vec<Value>,
}

const NO_NAME: u32 = 4_294_967_295;

pub fn records(root: &Value) -> Vec<[u32; 4]> {
    let mut records = Vec::new();
    add(root, &mut records);
    records
}

/// Adds the record of a value and then those inside it. The record after the last of them is the next one.
fn add(value: &Value, records: &mut Vec<[u32; 4]>) {
    let own = records.len();
    let name = value.name.map_or(NO_NAME, |place| place as u32);
    records.push([value.start as u32, value.end as u32, name, 0]);
    for child in &value.children {
        add(child, records);
    }
    records[own][3] = records.len() as u32;
}
