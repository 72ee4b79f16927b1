//! Texts at the edges of the form and of each limit, with what import answers: document 02, E1 and
//! E3.

/// What import answers where it is accepted, as the proved library has it.
pub const ACCEPTED: u32 = 256;

/// The text of P1.
pub const P1_TEXT: &str = r#"des (0, 4, 4)
(0, "5..20", 1)
(1, "3..15", 2)
(1, "2..30", 3)
(2, "4..25", 3)
"#;

/// The numerals of a text, each of which may be any string.
#[derive(Clone)]
pub struct Numerals {
    pub initial: String,
    pub count: String,
    pub states: String,
    /// From, low, high and to of each line.
    pub lines: Vec<[String; 4]>,
}

impl Numerals {
    pub fn text(&self) -> String {
        let Numerals {
            initial,
            count,
            states,
            lines,
        } = self;
        let mut text = format!("des ({initial}, {count}, {states})\n");
        for [from, low, high, to] in lines {
            text += &format!("({from}, \"{low}..{high}\", {to})\n");
        }
        text
    }
}

/// A text with these numbers, and so many lines from state 0 to state 0.
fn text(initial: usize, count: usize, states: usize, lines: usize) -> String {
    let line = ["0", "0", "2047", "0"].map(String::from);
    let numerals = Numerals {
        initial: initial.to_string(),
        count: count.to_string(),
        states: states.to_string(),
        lines: vec![line; lines],
    };
    numerals.text()
}

/// P1's text with some lines changed.
fn p1_with(changes: &[(&str, &str)]) -> String {
    changes
        .iter()
        .fold(P1_TEXT.to_string(), |text, (old, new)| {
            assert_eq!(text.matches(old).count(), 1, "{old:?}");
            text.replacen(old, new, 1)
        })
}

/// Texts with what import of each answers.
pub fn edges() -> Vec<(Vec<u8>, u32)> {
    let mut list: Vec<(Vec<u8>, u32)> = Vec::new();
    let mut add = |text: String, answer: u32| list.push((text.into_bytes(), answer));

    add(P1_TEXT.to_string(), ACCEPTED);
    for text in off_form() {
        add(text, 15);
    }

    // The number of lines, and the transition count.
    for (count, lines, answer) in [
        (0, 0, ACCEPTED),
        (0, 1, 15),
        (1, 0, 15),
        (3, 4, 15),
        (5, 4, 15),
        (2047, 2047, ACCEPTED),
        (2048, 2048, ACCEPTED),
        (2048, 2047, 15),
        (2048, 2049, 15),
        (2049, 2048, 15),
        (2049, 2049, 5),
        (3000, 3000, 5),
    ] {
        add(text(0, count, 4, lines), answer);
    }

    // The state count, and the initial state.
    for (initial, states, answer) in [
        (0, 0, 4),
        (1, 0, 4),
        (0, 1, ACCEPTED),
        (1, 1, 7),
        (510, 511, ACCEPTED),
        (511, 512, ACCEPTED),
        (512, 512, 7),
        (0, 513, 4),
        (600, 513, 4),
        (0, 1024, 4),
    ] {
        add(text(initial, 1, states, 1), answer);
    }

    // The order: 15 over the whole text, 4, 5, 7 of the initial state, then line by line 16 of the
    // from, 17 of the to and 8.
    let last = "(2, \"4..25\", 3)";
    let (bad_from, bad_to) = (("(0, \"5", "(4, \"5"), (" 1)", " 4)"));
    for (changes, answer) in [
        (&[("4, 4)", "4, 513)"), (last, "(2, \"4..25\",3)")][..], 15),
        (&[("4, 4)", "4, 0)"), (last, "(2, \"4..025\", 3)")], 15),
        (&[("4, 4)", "3, 513)")], 15),
        (&[bad_from, (last, "(2, \"4..25\", 03)")], 15),
        (&[bad_to, (last, "(02, \"4..25\", 3)")], 15),
        (&[("4, 4)", "4, 513)"), ("(0, \"5", "(600, \"5")], 4),
        (&[("4, 4)", "4, 513)"), (" 1)", " 600)")], 4),
        (&[("des (0", "des (4"), ("5..20", "5..4")], 7),
        (&[("des (0", "des (4"), bad_from], 7),
        (&[("des (0", "des (4"), bad_to], 7),
        (&[("des (0", "des (4"), (last, "(4, \"4..3\", 4)")], 7),
        (&[("des (0", "des (4"), (last, "(2, \"4..25\", 3")], 15),
        // Two lines, the first of which decides.
        (&[("5..20", "5..4"), (last, "(4, \"4..25\", 3)")], 8),
        (&[("5..20", "5..4"), (last, "(2, \"4..25\", 4)")], 8),
        (&[bad_from, (last, "(2, \"4..3\", 3)")], 16),
        (&[bad_from, (last, "(2, \"4..25\", 4)")], 16),
        (&[bad_to, (last, "(2, \"4..3\", 3)")], 17),
        (&[bad_to, (last, "(4, \"4..25\", 3)")], 17),
        // One line.
        (&[(last, "(4, \"4..3\", 3)")], 16),
        (&[(last, "(4, \"4..3\", 4)")], 16),
        (&[(last, "(4, \"4..25\", 4)")], 16),
        (&[(last, "(2, \"4..3\", 4)")], 17),
        (&[(last, "(2, \"0..2048\", 4)")], 17),
        (&[(last, "(3, \"0..0\", 0)")], ACCEPTED),
        (&[(last, "(4, \"4..25\", 3)")], 16),
        (&[(last, "(2, \"4..25\", 4)")], 17),
        (&[(last, "(2, \"4..4\", 3)")], ACCEPTED),
        (&[(last, "(2, \"4..3\", 3)")], 8),
        (&[(last, "(2, \"2047..2047\", 3)")], ACCEPTED),
        (&[(last, "(2, \"0..2048\", 3)")], 8),
        (&[(last, "(2, \"2048..2048\", 3)")], 8),
        (&[(last, "(2, \"2048..2047\", 3)")], 8),
    ] {
        add(p1_with(changes), answer);
    }
    add(text(0, 2049, 513, 2049), 4);
    add(text(9, 2049, 4, 2049), 5);
    add(text(0, 2049, 4, 2049).replace("2047", "2048"), 5);
    add(text(0, 2049, 4, 2049).replace("(0, \"", "(4, \""), 5);
    add(text(0, 2049, 4, 2049).replace("\", 0)", "\", 4)"), 5);

    // The greatest state in each column, and one more, whatever the state count.
    for n in [1, 9, 10, 11, 99, 100, 101, 511, 512] {
        let line = |from: usize, high: u32, to: usize| {
            format!("des (0, 1, {n})\n({from}, \"5..{high}\", {to})\n")
        };
        add(line(n - 1, 20, n - 1), ACCEPTED);
        add(line(n - 1, 4, n - 1), 8);
        for high in [20, 4] {
            add(line(n, high, n - 1), 16);
            add(line(n, high, n), 16);
            add(line(n - 1, high, n), 17);
        }
    }

    // Numbers that a machine word does not hold, in each place. Some are small ones modulo it.
    for number in long_numbers() {
        add(p1_with(&[("des (0", &format!("des ({number}"))]), 7);
        add(p1_with(&[("(0, 4", &format!("(0, {number}"))]), 15);
        add(p1_with(&[("4, 4)", &format!("4, {number})"))]), 4);
        add(p1_with(&[("(2, ", &format!("({number}, "))]), 16);
        add(p1_with(&[(" 1)", &format!(" {number})"))]), 17);
        add(p1_with(&[("\"4..", &format!("\"{number}.."))]), 8);
        add(p1_with(&[("..25", &format!("..{number}"))]), 8);
        add(p1_with(&[("4..25", &format!("{number}..{number}"))]), 8);
        // In two places, the first of which decides.
        let initial = ("des (0", &*format!("des ({number}"));
        let states = ("4, 4)", &*format!("4, {number})"));
        let from = ("(2, ", &*format!("({number}, "));
        let to = ("25\", 3)", &*format!("25\", {number})"));
        let high = ("..25", &*format!("..{number}"));
        add(p1_with(&[initial, states]), 4);
        add(p1_with(&[states, from]), 4);
        add(p1_with(&[states, to]), 4);
        add(p1_with(&[initial, from]), 7);
        add(p1_with(&[initial, to]), 7);
        add(p1_with(&[to, from]), 16);
        add(p1_with(&[from, high]), 16);
        add(p1_with(&[to, high]), 17);
        add(p1_with(&[from, bad_to]), 17);
        add(p1_with(&[to, bad_from]), 16);
        add(p1_with(&[("5..20", "5..4"), from]), 8);
        add(p1_with(&[("5..20", "5..4"), to]), 8);
        // On form or not, whatever is too large.
        let number_off = format!("0{number}");
        add(p1_with(&[("des (0", &format!("des ({number_off}"))]), 15);
        add(p1_with(&[("4, 4)", &format!("4, {number_off})"))]), 15);
        add(p1_with(&[("..25", &format!("..{number_off}"))]), 15);
    }

    // Octets that are no characters.
    for octet in [0x00, 0x80, 0xC3, 0xFF] {
        for place in [0, 5, 20, P1_TEXT.len()] {
            let mut text = P1_TEXT.as_bytes().to_vec();
            text.insert(place, octet);
            list.push((text, 15));
        }
    }
    list
}

/// Powers of two at and past the width of a word, and what they leave of small numbers; powers of
/// ten about that width, and one less; 400 and 100,000 digits.
fn long_numbers() -> Vec<String> {
    let mut numbers: Vec<String> = [16, 32, 64]
        .into_iter()
        .flat_map(|bits| [0, 1, 3, 4].map(|more| ((1u128 << bits) + more).to_string()))
        .collect();
    for power in [9, 10, 17, 18, 19, 20] {
        let ten: u128 = 10u128.pow(power);
        numbers.extend([ten - 1, ten].map(|number| number.to_string()));
    }
    // 2 to the 128, and 4 more.
    numbers.push("340282366920938463463374607431768211456".to_string());
    numbers.push("340282366920938463463374607431768211460".to_string());
    for digits in [400, 100_000] {
        numbers.push("9".repeat(digits));
        numbers.push(format!("1{}", "0".repeat(digits - 1)));
        numbers.push(format!("1{}4", "0".repeat(digits - 2)));
    }
    numbers
}

/// Texts off the form.
fn off_form() -> Vec<String> {
    let mut list: Vec<String> = [
        "",
        "\n",
        "des",
        "des (",
        "des (0, 0, 1)",
        "des (0, 0, 1) \n",
        " des (0, 0, 1)\n",
        "des  (0, 0, 1)\n",
        "des(0, 0, 1)\n",
        "DES (0, 0, 1)\n",
        "des (0,0,1)\n",
        "des (0, 0,  1)\n",
        "des (0 , 0, 1)\n",
        "des ( 0, 0, 1)\n",
        "des (0, 0, 1 )\n",
        "des (0,\t0, 1)\n",
        "des (0, 0)\n",
        "des (0, 0, 1, 1)\n",
        "des (, 0, 1)\n",
        "des (0, , 1)\n",
        "des (0, 0, )\n",
        "des (00, 0, 1)\n",
        "des (0, 00, 1)\n",
        "des (0, 0, 01)\n",
        "des (-1, 0, 1)\n",
        "des (-0, 0, 1)\n",
        "des (0, -1, 1)\n",
        "des (0, 0, +1)\n",
        "des (0, 0, 1.0)\n",
        "des (0, 0, 0x1)\n",
        "des (0, 0, 1)\r\n",
        "des (0, 0, 1)\r",
        "des (0, 0, 1)\n\n",
        "\ndes (0, 0, 1)\n",
        "des (0, 0, 1)\n ",
        "des (0, 0, 1)\ndes (0, 0, 1)\n",
    ]
    .map(String::from)
    .to_vec();

    let without_end = P1_TEXT.strip_suffix('\n').unwrap_or_default();
    list.push(without_end.to_string());
    list.push(without_end.replace('\n', "\r\n"));
    list.push(P1_TEXT.replace('\n', "\r\n"));
    list.push(P1_TEXT.replace('\n', "\r"));
    list.push(P1_TEXT.replacen('\n', "\r\n", 1));
    list.push(P1_TEXT.replacen('\n', "", 1));
    list.push(P1_TEXT.replacen('\n', "\n\n", 1));
    list.push(P1_TEXT.replace(", ", ","));
    list.push(P1_TEXT.replace('"', ""));
    list.push(P1_TEXT.replace('"', "'"));
    for more in ["\n", " ", "x", "\0", "(", "(2, \"4..25\", 3)\n"] {
        list.push(format!("{P1_TEXT}{more}"));
    }
    for (old, new) in [
        ("5..20", "05..20"),
        ("5..20", "5..020"),
        ("5..20", "00..20"),
        ("5..20", "5.20"),
        ("5..20", "5...20"),
        ("5..20", "5. .20"),
        ("5..20", "5 ..20"),
        ("5..20", "5.. 20"),
        ("5..20", "5,20"),
        ("5..20", "-1..20"),
        ("5..20", "5..-1"),
        ("5..20", "..20"),
        ("5..20", "5.."),
        ("5..20", ".."),
        ("5..20", "5"),
        ("5..20", ""),
        ("5..20", "5..20..30"),
        ("5..20", " 5..20"),
        ("5..20", "5..20 "),
        ("(0, \"", "(-1, \""),
        ("(0, \"", "(, \""),
        ("(0, \"", "(00, \""),
        ("(0, \"", "0, \""),
        (" 1)", " 01)"),
        (" 1)", " 1"),
        (" 1)", " 1))"),
        (" 1)", " )"),
        (" 1)", " 1, 1)"),
    ] {
        list.push(p1_with(&[(old, new)]));
    }
    // A space or a quote too few, and one too many, at each place.
    for (place, octet) in P1_TEXT.bytes().enumerate() {
        if matches!(octet, b' ' | b'"') {
            let (before, after) = P1_TEXT.split_at(place);
            list.push(format!("{before}{}", &after[1..]));
            list.push(format!("{before}{}{after}", char::from(octet)));
        }
    }
    list
}
