//! Real material: the outputs of the two programmable logic arrays printed in
//! [Dvořák], as texts and by a plain evaluation that reads their letters.

const PRINTED: [&str; 2] = [
    include_str!("../data/pla1.txt"),
    include_str!("../data/pla2.txt"),
];

/// One output of an array: a sum of products of letters and complemented letters.
pub struct Output {
    pub name: &'static str,
    /// How many inputs the array has; the first is the letter A.
    pub inputs: usize,
    printed: &'static str,
}

/// The outputs of both arrays.
pub fn outputs() -> Vec<Output> {
    PRINTED.iter().flat_map(|array| of_array(array)).collect()
}

fn of_array(array: &'static str) -> impl Iterator<Item = Output> {
    let mut lines = array.lines().filter(|line| !line.starts_with('#'));
    let letters = lines.next().expect("the inputs come first");
    let inputs = letters.split(' ').count() - 1;
    lines.map(move |line| {
        let (name, printed) = line.split_once(" = ").expect("an output has a name");
        Output {
            name,
            inputs,
            printed,
        }
    })
}

/// The number of a letter's input, A being 0.
fn number(letter: char) -> usize {
    letter as usize - 'A' as usize
}

impl Output {
    /// The output as a text, each letter being the primitive of its number.
    pub fn text(&self) -> String {
        let mut text = String::new();
        for letter in self.printed.chars() {
            match letter {
                'A'..='Z' => text += &number(letter).to_string(),
                _ => text.push(letter),
            }
        }
        text
    }

    /// The output's truth; bit i of the inputs is the truth of the letter of number i.
    pub fn truth(&self, inputs: usize) -> bool {
        let factor = |factor: &str| match factor.strip_prefix('!') {
            Some(letter) => !holds(letter, inputs),
            None => holds(factor, inputs),
        };
        let mut products = self.printed.split(" + ");
        products.any(|product| product.split('*').all(factor))
    }
}

fn holds(letter: &str, inputs: usize) -> bool {
    let letter = letter.chars().next().expect("a factor has a letter");
    inputs >> number(letter) & 1 == 1
}
