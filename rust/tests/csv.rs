//! Comma-separated text read back.

use oskuramos::{lent, Records, Refused};

/// The fields of each record, as text.
fn fields(text: &[u8]) -> Result<Vec<[String; 5]>, Refused> {
    let shown = |bytes: &[u8]| String::from_utf8_lossy(bytes).into_owned();
    let records = Records::read(text)?;
    let all = records.iter().map(|r| [shown(r.control), shown(r.type_code), shown(r.property), shown(r.word), shown(r.value)]);
    Ok(all.collect())
}

fn five(text: &str) -> [String; 5] {
    text.split('|').map(String::from).collect::<Vec<_>>().try_into().unwrap()
}

#[test]
fn records_are_read_with_quotes_undone() {
    let text = b"control,type,property,word,value\r\n,,8031,short,5\r\n1,0064,Name,text,\"a,\"\"b\"\"\r\n\"\r\n";
    let read = vec![five("control|type|property|word|value"), five("||8031|short|5"), five("1|0064|Name|text|a,\"b\"\r\n")];
    assert_eq!(fields(text), Ok(read.clone()));
    assert_eq!(fields(&text[..text.len() - 2]), Ok(read), "without the last CR LF");
    assert_eq!(fields(b"\"\",,\"\",,"), Ok(vec![five("||||")]));
}

#[test]
fn records_by_number() {
    let records = Records::read(b"a,b,c,d,e\r\nf,g,h,i,j").unwrap();
    assert_eq!(records.len(), 2);
    assert_eq!(records.get(1).unwrap().control, b"f");
    assert_eq!(records.get(2), None);
    assert_eq!(records.iter().rev().map(|r| r.value).collect::<Vec<_>>(), [b"j", b"e"]);
}

#[test]
fn what_is_not_of_the_grammar_is_refused() {
    let bad: [&[u8]; 12] = [
        b"",
        b"\r\n",
        b"a,b,c,d",
        b"a,b,c,d,e,f",
        b"a,b,c,d,e\n",
        b"a,b,c,d,e\r",
        b"a,b,c,d,e\r\n\r\n",
        b"a,b,c,d,\"e",
        b"a,b,c,d,\"e\"f",
        b"a,b,c,d,e\"",
        b"a,b,c,d, \"e\"",
        b"a,b,c,d,e\r\nf",
    ];
    for text in bad {
        assert_eq!(Records::read(text), Err(Refused::NotASheet), "{}", String::from_utf8_lossy(text));
    }
}

#[test]
fn room_that_is_lent() {
    let mut rows = [[7; 2]; 6];
    let mut out = *b"......";
    assert_eq!(lent::read_csv(b"a,bc,,d,e", &mut rows, &mut out), Ok((5, 5)));
    assert_eq!((rows, out), ([[0, 1], [1, 2], [3, 0], [3, 1], [4, 1], [7, 7]], *b"abcde."));
    let (kept_rows, kept_out) = (rows, out);
    assert_eq!(lent::read_csv(b"a,bc,,d,e", &mut rows[..4], &mut out), Err(Refused::NoRoomForSheet));
    assert_eq!(lent::read_csv(b"a,bc,,d,e", &mut rows, &mut out[..4]), Err(Refused::NoRoomForSheet));
    assert_eq!(lent::read_csv(b"a,bc,,d", &mut [], &mut []), Err(Refused::NotASheet), "14 comes before 13");
    assert_eq!((rows, out), (kept_rows, kept_out), "a refused call writes nothing");
}
