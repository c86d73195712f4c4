//! Document 01's whole case, with the key in quotes and the "gone" that 02 asks for, and both sides of each line.

use peer::*;

const PLAN: Plan = Plan {
    order: ByteOrder::Little,
    base: 0x2000_0000,
    mask: 0xFFFF,
    name_size: 8,
    entries: 0,
};

fn refused(number: u32) -> Refusal {
    Refusal { number, place: 0 }
}

fn plain_event(stamp: u32) -> [u32; 8] {
    [0x2000_1000, 16, 5, stamp, 1, 2, 3, 4]
}

fn thread(name: &[u8]) -> Object<'_> {
    Object {
        kind: 1,
        pointer: 0x2000_1000,
        parameters: [0, 0],
        reserved: [16, 0],
        name,
    }
}

/// A buffer formatted by the plan, with room for so many slots and events of these stamps.
fn buffer_with(plan: &Plan, slots: usize, stamps: &[u32]) -> Vec<u8> {
    let entry = 16 + usize::from(plan.name_size);
    let mut buffer = vec![0xEE; 48 + plan.entries * entry + 32 * slots];
    assert_eq!(format(&mut buffer, plan), Ok(slots));
    for &stamp in stamps {
        record(&mut buffer, &plain_event(stamp)).unwrap();
    }
    buffer
}

fn text_of(dump: &[u8], reading: &Reading) -> Result<String, Refusal> {
    let mut output = vec![b'.'; 4_000];
    let length = listing(dump, reading, &mut output)?;
    assert!(output[length..].iter().all(|&byte| byte == b'.'));
    output.truncate(length);
    Ok(String::from_utf8(output).unwrap())
}

fn whole_case(order: ByteOrder) -> Vec<u8> {
    let plan = Plan {
        order,
        entries: 1,
        ..PLAN
    };
    let mut buffer = buffer_with(&plan, 3, &[]);
    assert_eq!(register(&mut buffer, &thread(b"pump")), Ok(0));
    assert_eq!(record(&mut buffer, &plain_event(9)), Ok(0));
    assert_eq!(record(&mut buffer, &plain_event(65_500)), Ok(1));
    let isr = [0xFFFF_FFFF, 0x2000_1000, 1025, 20, 0, 0, 0, 0];
    assert_eq!(record(&mut buffer, &isr), Ok(2));
    assert_eq!(
        record(&mut buffer, &[0x2000_2000, 16, 6, 20, 7, 0, 0, 0]),
        Ok(0)
    );
    buffer
}

const LINES: [&str; 3] = [
    r#"{"key":"9007199254740992","ticks":0,"us":0,"id":5,"ptr":536875008,"by":"thread","name":"pump","gone":false,"field":16,"info":[1,2,3,4]}"#,
    r#"{"key":"9007199254740993","ticks":56,"us":18,"id":1025,"ptr":4294967295,"by":"isr","name":"pump","gone":false,"field":536875008,"info":[0,0,0,0]}"#,
    r#"{"key":"9007199254740994","ticks":56,"us":18,"id":6,"ptr":536879104,"by":"thread","name":null,"gone":false,"field":16,"info":[7,0,0,0]}"#,
];

#[test]
fn the_whole_case() {
    let reading = Reading::new(3_000_000, 8192, 0);
    let expected: String = LINES.iter().map(|line| format!("{}\n", line)).collect();
    for order in [ByteOrder::Little, ByteOrder::Big] {
        let buffer = whole_case(order);
        let summary = check(&buffer).unwrap();
        assert_eq!(
            (summary.events, summary.header.current),
            (3, 0x2000_0000 + 104)
        );
        assert_eq!(text_of(&buffer, &reading).unwrap(), expected);
        for (position, expected) in LINES.iter().enumerate() {
            let mut output = vec![b'.'; expected.len() + 3];
            let length = line(&buffer, &reading, position, &mut output).unwrap();
            assert_eq!(output, format!("{}\n..", expected).into_bytes());
            assert_eq!(length, expected.len() + 1);
        }
    }
}

#[test]
fn the_whole_case_after_its_thread_was_removed() {
    let reading = Reading::new(3_000_000, 8192, 0);
    let named = r#""name":"pump","gone":false"#;
    let gone = r#""name":"pump","gone":true"#;
    let expected: String = LINES
        .iter()
        .map(|line| format!("{}\n", line.replace(named, gone)))
        .collect();
    assert_eq!(expected.matches(gone).count(), 2);
    for order in [ByteOrder::Little, ByteOrder::Big] {
        let mut buffer = whole_case(order);
        assert_eq!(remove(&mut buffer, 0x2000_1000), Ok(0));
        assert_eq!(text_of(&buffer, &reading).unwrap(), expected);
    }
}

#[test]
fn the_output_fits_exactly_or_stays_untouched() {
    let buffer = whole_case(ByteOrder::Little);
    let reading = Reading::new(3_000_000, 8192, 0);
    let length = text_of(&buffer, &reading).unwrap().len();
    assert_eq!(listing(&buffer, &reading, &mut vec![0; length]), Ok(length));
    let mut output = vec![b'.'; length - 1];
    assert_eq!(listing(&buffer, &reading, &mut output), Err(refused(16)));
    assert!(output.iter().all(|&byte| byte == b'.'));
    assert_eq!(line(&buffer, &reading, 3, &mut []), Err(refused(25)));
    assert_eq!(
        line(&buffer, &reading, usize::MAX, &mut []),
        Err(refused(25))
    );
    assert_eq!(line(&buffer, &reading, 2, &mut []), Err(refused(16)));
}

#[test]
fn masks() {
    for (mask, passes) in [
        (1, true),
        (u32::MAX, true),
        (0, false),
        (5, false),
        (0xFF00, false),
    ] {
        let mut buffer = buffer_with(&PLAN, 1, &[]);
        buffer[4..8].copy_from_slice(&u32::to_le_bytes(mask));
        assert_eq!(
            check(&buffer).err(),
            if passes { None } else { Some(refused(4)) }
        );
        let formatted = format(&mut buffer, &Plan { mask, ..PLAN });
        assert_eq!(formatted, if passes { Ok(1) } else { Err(refused(4)) });
    }
}

#[test]
fn top_of_memory() {
    let plan = Plan {
        base: 0xFFFF_FF00,
        name_size: 4,
        entries: 4,
        ..PLAN
    };
    let buffer = buffer_with(&plan, 4, &[1, 2, 3, 4, 5]);
    assert_eq!(buffer.len(), 256);
    let summary = check(&buffer).unwrap();
    assert_eq!((summary.header.buffer_end, summary.events), (0, 4));
}

#[test]
fn smallest_buffer() {
    assert_eq!(format(&mut [0; 80], &PLAN), Ok(1));
    assert_eq!(format(&mut [0; 79], &PLAN), Err(refused(24)));
    assert_eq!(format(&mut [], &PLAN), Err(refused(24)));
}

#[test]
fn counts_of_entries_that_wrap() {
    for entries in [
        usize::MAX,
        1 << 61,
        (1 << 61) + 1,
        1 << 29,
        usize::MAX / 24 + 1,
    ] {
        let plan = Plan { entries, ..PLAN };
        assert_eq!(format(&mut [0; 4_096], &plan), Err(refused(24)));
    }
}

#[test]
fn gaps() {
    let buffer = buffer_with(&PLAN, 3, &[65_500, 20, 20]);
    let ticks: Vec<u64> = (0..3)
        .map(|position| event(&buffer, position).unwrap().ticks)
        .collect();
    assert_eq!(ticks, [0, 56, 56]);
    assert_eq!(event(&buffer, 3), Err(refused(25)));
}

#[test]
fn microseconds() {
    let plan = Plan {
        mask: u32::MAX,
        ..PLAN
    };
    let stamps = [0, 4_000_000_000, 3_705_032_704, 417_264_662, 417_264_663];
    let buffer = buffer_with(&plan, 5, &stamps);
    assert_eq!(event(&buffer, 3).unwrap().ticks, 9_007_199_254);
    let text = text_of(&buffer, &Reading::new(1, 0, 0)).unwrap();
    assert!(text.contains(r#""ticks":9007199254,"us":9007199254000000,"#));
    assert!(text.contains(r#""ticks":9007199255,"us":"9007199255000000","#));
}

#[test]
fn largest_times() {
    let plan = Plan {
        mask: u32::MAX,
        ..PLAN
    };
    let stamps: Vec<u32> = (0..2_046).map(|back| 0u32.wrapping_sub(back)).collect();
    let buffer = buffer_with(&plan, 2_046, &stamps);
    assert_eq!(event(&buffer, 2_045).unwrap().ticks, 8_783_208_118_275);
    let mut output = [b'.'; 200];
    let length = line(&buffer, &Reading::new(1, 9, 0), 2_045, &mut output).unwrap();
    let text = String::from_utf8(output[..length].to_vec()).unwrap();
    assert!(text.contains(r#""ticks":8783208118275,"us":"8783208118275000000","#));
}

#[test]
fn name_bytes() {
    let mut buffer = buffer_with(&Plan { entries: 1, ..PLAN }, 1, &[0]);
    register(&mut buffer, &thread(&[0x41, 0x22, 0x0A])).unwrap();
    let text = text_of(&buffer, &Reading::new(1, 0, 0)).unwrap();
    assert!(text.contains(r#""name":"A\"\u000a","#));
    let name = Name {
        bytes: &[0x41, 0x22, 0x0A],
        kind: NameKind::Live,
    };
    assert_eq!(find_name(&buffer, 0x2000_1000), Ok(Some(name)));
    assert_eq!(find_name(&buffer, 0x2000_1001), Ok(None));
}

#[test]
fn serials() {
    let reading = Reading::new(1, 0, 1_099_511_627_775);
    let one = buffer_with(&PLAN, 2, &[0]);
    let two = buffer_with(&PLAN, 2, &[0, 0]);
    assert!(text_of(&one, &reading).is_ok());
    assert_eq!(text_of(&two, &reading), Err(refused(15)));
    assert_eq!(
        text_of(&two, &Reading::new(1, 0, u64::MAX)),
        Err(refused(15))
    );
    assert_eq!(
        text_of(&one, &Reading::new(1, 1 << 24, 0)),
        Err(refused(15))
    );
    assert_eq!(
        text_of(&one, &Reading::new(0, 1 << 24, 0)),
        Err(refused(14))
    );
    let none = buffer_with(&PLAN, 2, &[]);
    assert_eq!(
        text_of(&none, &Reading::new(1, 0, 1 << 40)),
        Ok(String::new())
    );
}

#[test]
fn keys_beside_the_limit() {
    let one = buffer_with(&PLAN, 2, &[0]);
    for (unit, serial, key) in [
        (8191, 1_099_511_627_775, "9007199254740991"),
        (8192, 0, "\"9007199254740992\""),
        (8192, 1, "\"9007199254740993\""),
    ] {
        let reading = Reading::new(1, unit, serial);
        let start = format!("{{\"key\":{},\"ticks\":0,", key);
        let text = text_of(&one, &reading).unwrap();
        assert!(text.starts_with(&start), "{}", text);
        let mut output = vec![b'.'; text.len()];
        assert_eq!(line(&one, &reading, 0, &mut output), Ok(text.len()));
        assert_eq!(output, text.into_bytes());
    }
    let two = buffer_with(&PLAN, 2, &[0, 0]);
    let across = Reading::new(1, 8191, 1_099_511_627_775);
    assert_eq!(text_of(&two, &across), Err(refused(15)));
}

#[test]
fn lengths() {
    assert_eq!(check(&[]), Err(refused(1)));
    assert_eq!(check(&[0; 47]), Err(refused(1)));
    assert_eq!(check(&[0; 48]), Err(refused(3)));
    assert_eq!(check(&[0; 65_536]), Err(refused(3)));
    assert_eq!(check(&[0; 65_537]), Err(refused(2)));
}

#[test]
fn numbers() {
    assert_eq!(number(0), "0");
    assert_eq!(number(9_007_199_254_740_991), "9007199254740991");
    assert_eq!(number(9_007_199_254_740_992), "\"9007199254740992\"");
    assert_eq!(number(9_007_199_254_740_993), "\"9007199254740993\"");
    assert_eq!(number(u64::MAX), "\"18446744073709551615\"");
}
