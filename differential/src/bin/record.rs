//! Writes the recorded answers from the original: `cargo run --release --bin record`, in this folder. Sources on which a request parts from
//! the original are left out, unless they are spelled otherwise; the limits 3 and 5 are the model's.
#[cfg(original)]
fn main() {
    use differential::escapes::escaped;
    use differential::listings::one_line;
    use differential::recorded::names_of;
    use differential::recording::*;
    use differential::{original, sources::words};
    use std::fs::write;

    let file = |name: &str, sources: Vec<Vec<u8>>, answer: fn(&[u8]) -> Option<String>| {
        let line = |source: &Vec<u8>| answer(source).map(|said| format!("{}\t{said}\n", escaped(source)));
        write(format!("recorded/{name}.txt"), sources.iter().filter_map(line).collect::<String>()).unwrap();
    };
    file("tokens", token_sources(), tokens_from_original);
    file("respelled_tokens", token_sources(), tokens_from_original_respelled);
    file("reads", read_sources(), |source| Some(one_line(&from_original(source)?)));
    file("respelled_reads", read_sources(), |source| Some(one_line(&from_original_respelled(source)?)));

    let mut list = Vec::new();
    for word in original::spellings().into_iter().chain(words::OTHERS) {
        let more = [word.to_string(), word.to_uppercase(), format!("{word}x"), word[1..].to_string(), format!("{word}.x")];
        list.extend(more.map(String::into_bytes));
    }
    file("words", list, |word| Some(names_of(word, &mut |word| original::named(std::str::from_utf8(word).unwrap()))));
}

#[cfg(not(original))]
fn main() {
    panic!("the original's sources are not there");
}
