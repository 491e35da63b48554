//! What a user would write by hand for `arrowtab export FILE` over columns of integers, truth values and texts: serde_json's `Value`
//! read into columns, texts once in a set, and the file printed piece by piece.
use indexmap::IndexSet;
use serde_json::Value;
use std::io::Write;

enum Data {
    Numbers { bits: u64, signed: bool, values: Vec<i64> },
    Truths(Vec<bool>),
    Codes(Vec<i32>),
}

struct Column {
    validity: Vec<bool>,
    data: Data,
}

fn flag(value: &Value) -> bool {
    value.as_bool().unwrap_or_else(|| value.as_u64() == Some(1))
}

/// A number of 64 bits at most, as the bits of a signed one.
fn number(value: &Value) -> i64 {
    match value {
        Value::String(text) => text.parse::<i128>().unwrap() as i64,
        value => value.as_i64().unwrap_or_else(|| value.as_u64().unwrap() as i64),
    }
}

fn column(value: &Value, ty: &Value, texts: &mut IndexSet<String>) -> Column {
    let count = value["count"].as_u64().unwrap() as usize;
    let items = value["DATA"].as_array().unwrap();
    assert_eq!(items.len(), count);
    let validity: Vec<bool> = match value.get("VALIDITY").and_then(Value::as_array) {
        Some(flags) => flags.iter().map(flag).collect(),
        None => vec![true; count],
    };
    assert_eq!(validity.len(), count);
    let valid = items.iter().zip(&validity);
    let data = match ty["name"].as_str().unwrap() {
        "int" => Data::Numbers {
            bits: ty["bitWidth"].as_u64().unwrap(),
            signed: ty["isSigned"].as_bool().unwrap(),
            values: valid.map(|(item, valid)| if *valid { number(item) } else { 0 }).collect(),
        },
        "bool" => Data::Truths(valid.map(|(item, valid)| *valid && flag(item)).collect()),
        "utf8" => Data::Codes(valid.map(|(item, valid)| if *valid { code(item.as_str().unwrap(), texts) } else { 0 }).collect()),
        other => panic!("a column of {other}"),
    };
    Column { validity, data }
}

fn code(text: &str, texts: &mut IndexSet<String>) -> i32 {
    match texts.get_index_of(text) {
        Some(code) => code as i32,
        None => texts.insert_full(text.to_string()).0 as i32,
    }
}

/// The items, one behind the other with commas between, in brackets.
fn list<T>(out: &mut Vec<u8>, items: impl IntoIterator<Item = T>, mut write: impl FnMut(&mut Vec<u8>, T)) {
    out.push(b'[');
    for (i, item) in items.into_iter().enumerate() {
        if i > 0 {
            out.push(b',');
        }
        write(out, item);
    }
    out.push(b']');
}

fn print_column(out: &mut Vec<u8>, name: &Value, column: &Column) {
    out.extend_from_slice(b"{\"DATA\":");
    match &column.data {
        Data::Numbers { bits: 64, signed: true, values } => list(out, values, |out, value| write!(out, "\"{value}\"").unwrap()),
        Data::Numbers { bits: 64, signed: false, values } => list(out, values, |out, value| write!(out, "\"{}\"", *value as u64).unwrap()),
        Data::Numbers { values, .. } => list(out, values, |out, value| write!(out, "{value}").unwrap()),
        Data::Truths(values) => list(out, values, |out, value| out.push(b'0' + u8::from(*value))),
        Data::Codes(codes) => list(out, codes, |out, code| write!(out, "{code}").unwrap()),
    }
    out.extend_from_slice(b",\"VALIDITY\":");
    list(out, &column.validity, |out, valid| out.push(b'0' + u8::from(*valid)));
    write!(out, ",\"count\":{},\"name\":{name}}}", column.validity.len()).unwrap();
}

fn print_dictionary(out: &mut Vec<u8>, id: usize, name: &Value, texts: &IndexSet<String>) {
    out.extend_from_slice(b"{\"data\":{\"columns\":[{\"DATA\":");
    list(out, texts, |out, text| serde_json::to_writer(out, text).unwrap());
    out.extend_from_slice(b",\"OFFSET\":");
    let ends = texts.iter().scan(0, |end, text| {
        *end += text.len();
        Some(*end)
    });
    list(out, std::iter::once(0).chain(ends), |out, end| write!(out, "{end}").unwrap());
    out.extend_from_slice(b",\"VALIDITY\":");
    list(out, texts, |out, _| out.push(b'1'));
    let count = texts.len();
    write!(out, ",\"count\":{count},\"name\":{name}}}],\"count\":{count}}},\"id\":{id}}}").unwrap();
}

fn print_field(out: &mut Vec<u8>, id: usize, field: &Value) {
    let (name, nullable, ty) = (&field["name"], &field["nullable"], &field["type"]);
    out.extend_from_slice(b"{\"children\":[],");
    if ty["name"] == "utf8" {
        let index = "{\"bitWidth\":32,\"isSigned\":true,\"name\":\"int\"}";
        write!(out, "\"dictionary\":{{\"id\":{id},\"indexType\":{index},\"isOrdered\":false}},").unwrap();
    }
    write!(out, "\"name\":{name},\"nullable\":{nullable},\"type\":{ty}}}").unwrap();
}

fn main() {
    let path = std::env::args().nth(2).expect("export FILE");
    let file: Value = serde_json::from_slice(&std::fs::read(path).unwrap()).unwrap();
    let fields = file["schema"]["fields"].as_array().unwrap();
    let mut texts: Vec<IndexSet<String>> = fields.iter().map(|_| IndexSet::new()).collect();
    let mut batches = Vec::new();
    for batch in file["batches"].as_array().unwrap() {
        let columns = batch["columns"].as_array().unwrap().iter().zip(fields).zip(&mut texts);
        let columns: Vec<Column> = columns.map(|((value, field), texts)| column(value, &field["type"], texts)).collect();
        batches.push((batch["count"].as_u64().unwrap(), columns));
    }
    let mut out = Vec::new();
    out.extend_from_slice(b"{\"batches\":");
    list(&mut out, &batches, |out, (count, columns)| {
        out.extend_from_slice(b"{\"columns\":");
        list(out, columns.iter().zip(fields), |out, (column, field)| print_column(out, &field["name"], column));
        write!(out, ",\"count\":{count}}}").unwrap();
    });
    let coded: Vec<usize> = (0..fields.len()).filter(|k| fields[*k]["type"]["name"] == "utf8").collect();
    if !coded.is_empty() {
        out.extend_from_slice(b",\"dictionaries\":");
        list(&mut out, coded, |out, k| print_dictionary(out, k, &fields[k]["name"], &texts[k]));
    }
    out.extend_from_slice(b",\"schema\":{\"fields\":");
    list(&mut out, fields.iter().enumerate(), |out, (k, field)| print_field(out, k, field));
    out.extend_from_slice(b"}}\n");
    std::io::stdout().write_all(&out).unwrap();
}
