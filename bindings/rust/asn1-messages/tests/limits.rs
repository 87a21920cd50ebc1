//! What the messages of the repository do not show: errors of modules, limits, and other rules.

use asn1_messages::{Codec, Error, Message, Rules, Schema};

const NESTED: &str = "Nested DEFINITIONS AUTOMATIC TAGS ::= BEGIN
    List ::= SEQUENCE OF List
    Choice ::= CHOICE { number INTEGER (0..7), names SET OF IA5String }
END";

fn text(error: Error) -> String {
    error.to_string()
}

#[test]
fn a_module_with_an_error_is_rejected_with_its_line_and_column() {
    let wrong = "A DEFINITIONS ::= BEGIN\n  T ::= SEQUENCE { a Missing }\nEND";
    assert_eq!(Schema::parse(wrong).err().map(text), Some("2:22: the name is not defined".into()));
    let schema = Schema::parse(NESTED).unwrap();
    assert_eq!(schema.types().collect::<Vec<_>>(), ["Nested.List", "Nested.Choice"]);
    assert!(schema.codec("Nested.List", Rules::Der).is_ok());
    assert_eq!(schema.codec("Other", Rules::Der).err().map(text), Some("there is no type Other".into()));
}

#[test]
fn a_value_of_too_many_levels_or_parts_is_rejected() {
    let schema = Schema::parse(NESTED).unwrap();
    let list = schema.codec("List", Rules::Uper).unwrap();
    // Lists of one list, the last one empty: an octet of the length for each.
    let deep = [vec![1; 40], vec![0]].concat();
    assert_eq!(list.decode(&deep).unwrap().parts().len(), 41);
    assert!(list.decode(&[1; 100_000]).err().map(text).unwrap().ends_with("the value is nested too deep"));
    let flat = [vec![100], vec![0; 100]].concat();
    assert_eq!(list.decode(&flat).unwrap().parts().len(), 101);
    let list = list.with_limits(10, 100);
    assert!(list.decode(&deep).is_err());
    assert!(list.decode(&flat).is_err());
    assert_eq!(list.decode(&flat[..100]).err().map(text), Some("offset 100, bit 0, [99]: bits are missing".into()));
}

#[test]
fn a_value_is_encoded_by_other_rules() {
    let schema = Schema::parse(NESTED).unwrap();
    let [der, uper, aper] = [Rules::Der, Rules::Uper, Rules::Aper].map(|it| schema.codec("Choice", it).unwrap());
    // X.691 23.6, 13.2.2: an index of one bit, and three bits for 5.
    assert_eq!(uper.encode_json(r#"{"number": 5}"#).unwrap(), [0b0101_0000]);
    assert_eq!(der.encode_json(r#"{"number": 5}"#).unwrap(), [0x80, 1, 5]);
    let octets = der.encode_json(r#"{"names": ["b", "a", "cc"]}"#).unwrap();
    // X.690 11.6: in ascending order.
    assert_eq!(octets, [&[0xA1, 10, 0x16, 1][..], b"a", &[0x16, 1], b"b", &[0x16, 2], b"cc"].concat());
    let message = der.decode(&octets).unwrap();
    let by_per = message.encode(&aper).unwrap();
    assert_eq!(aper.decode(&by_per).unwrap().encode(&der), Ok(octets));
}

#[test]
fn threads_may_share_all_of_it() {
    fn is_shared<T: Send + Sync>() {}
    is_shared::<Schema>();
    is_shared::<Codec<'_>>();
    is_shared::<Message<'_>>();
}

#[test]
fn values_are_found_by_paths() {
    let schema = Schema::parse(NESTED).unwrap();
    let choice = schema.codec("Choice", Rules::Der).unwrap();
    let octets = choice.encode_json(r#"{"names": ["b", "a"]}"#).unwrap();
    let message = choice.decode(&octets).unwrap();
    let view = message.view();
    let text = |path: &str| message.find(&view, path).map(|it| it.to_string());
    assert_eq!(text("names[1]"), Some("\"b\"".into()));
    assert_eq!(text("names").as_deref(), Some("{\"a\", \"b\"}"));
    assert_eq!(text(""), Some(message.to_string()));
    for path in ["names[2]", "names[x]", "names.a", "number", "names[0][0]", "other", "\0"] {
        assert_eq!(text(path), None, "{path}");
    }
}

#[test]
fn json_is_read_strictly() {
    let schema = Schema::parse(NESTED).unwrap();
    let choice = schema.codec("Choice", Rules::Der).unwrap();
    for (json, octets) in [
        (r#" { "names" : [ "\u0061\n\"" ] } "#, vec![0xA1, 5, 0x16, 3, b'a', b'\n', b'"']),
        (r#"{"names":[]}"#, vec![0xA1, 0]),
        (r#"{"number":7}"#, vec![0x80, 1, 7]),
    ] {
        assert_eq!(choice.encode_json(json), Ok(octets), "{json}");
    }
    for json in [
        "", "{", "{}}", r#"{"names":["a",]}"#, r#"{"names":["a" "b"]}"#, r#"{"number":07}"#, r#"{"number":+7}"#, r#"{"number":.7}"#,
        r#"{"number":7.}"#, r#"{"number":7e0}"#, r#"{"number":8}"#, r#"{"number":"7"}"#, r#"{"names":["\ud800"]}"#, r#"{"names":["\x"]}"#, "{'number':7}",
        "{\"names\":[\"a\tb\"]}", r#"{"number":7} 8"#, r#"[{"number":7}]"#, r#"{"number":7,}"#, r#"{"number" 7}"#, "{\"names\":[\"a",
    ] {
        assert!(choice.encode_json(json).is_err(), "{json}");
    }
}
