//! What `quote` prints.

use crate::figure::{Figure, Quotation, Value, FIGURES};
use crate::image::decode;
use crate::rounds;

/// All that `quote` prints for an image on standard input.
pub fn quote(octets: &[u8]) -> String {
    match decode(octets) {
        Ok(plan) => FIGURES
            .map(|figure| line(figure, &rounds::quote(&plan, figure)))
            .concat(),
        Err(refusal) => format!("refused {}\n", refusal.number()),
    }
}

/// The line of a figure.
pub fn line(figure: Figure, quotation: &Quotation) -> String {
    let value = match quotation.value {
        Value::Number(number) => number.to_string(),
        Value::None => "NONE".to_string(),
        Value::Stranded => "STRANDED".to_string(),
        Value::Endless => "ENDLESS".to_string(),
    };
    let mut line = format!("{} {value}:", figure.name());
    for number in &quotation.walk {
        line += &format!(" {number}");
    }
    if quotation.value == Value::Endless {
        line += &format!(" @{}", quotation.j);
    }
    line + "\n"
}

/// What a line says of a figure, if it is a line of that figure to the letter.
pub fn parse(figure: Figure, text: &str) -> Option<Quotation> {
    let rest = text.strip_prefix(figure.name())?.strip_prefix(' ')?;
    let (value, walk) = rest.strip_suffix('\n')?.split_once(':')?;
    let value = match value {
        "NONE" => Value::None,
        "STRANDED" => Value::Stranded,
        "ENDLESS" => Value::Endless,
        number => Value::Number(number.parse().ok()?),
    };
    let (walk, j) = match walk.split_once(" @") {
        Some((walk, j)) => (walk, j.parse().ok()?),
        None => (walk, 0),
    };
    let numbers = walk.split(' ').skip(1).map(|number| number.parse().ok());
    let walk = numbers.collect::<Option<Vec<usize>>>()?;
    let quotation = Quotation { value, walk, j };
    (line(figure, &quotation) == text).then_some(quotation)
}

#[cfg(test)]
mod tests {
    use super::*;

    #[test]
    fn lines_are_parsed_to_the_letter() {
        let figure = Figure::GreatestDelay;
        for (text, value, walk, j) in [
            (
                "greatest delay 60: 0 1 3\n",
                Value::Number(60),
                &[0, 1, 3][..],
                0,
            ),
            ("greatest delay 0: 5\n", Value::Number(0), &[5], 0),
            ("greatest delay NONE:\n", Value::None, &[], 0),
            ("greatest delay STRANDED:\n", Value::Stranded, &[], 0),
            ("greatest delay STRANDED: 7\n", Value::Stranded, &[7], 0),
            (
                "greatest delay ENDLESS: 4 2047 @1\n",
                Value::Endless,
                &[4, 2047],
                1,
            ),
        ] {
            let walk = walk.to_vec();
            assert_eq!(parse(figure, text), Some(Quotation { value, walk, j }));
        }
        for text in [
            "greatest delay 60: 0 1 3",
            "greatest delay 60: 0 1 3\n\n",
            "greatest delay 60: 0  1 3\n",
            "greatest delay 60: 0 1 3 \n",
            "greatest delay 60 : 0 1 3\n",
            "greatest delay 060: 0 1 3\n",
            "greatest delay 60: 0 1 03\n",
            "greatest delay +60: 0 1 3\n",
            "greatest delay 60 0 1 3\n",
            "greatest delay 60: 0 1 x\n",
            "greatest delay 60: 0 1 3 @0\n",
            "greatest delay endless: 0 @0\n",
            "greatest delay ENDLESS: 0\n",
            "greatest delay ENDLESS: 0 @ 0\n",
            "Greatest delay 60: 0 1 3\n",
            "greatest count 60: 0 1 3\n",
        ] {
            assert_eq!(parse(figure, text), None, "{text:?}");
        }
    }
}
