//! Compares the proved library with the model of its rules, and, where the original is there, the model with the original; and the library
//! with recorded answers. Ends with a panic at the first difference. `--long` takes more sources. `--base` compares with the base rules
//! (RULES 14), for a library of those; `--suffix-first` with the rules, but numbers by RULES 14.2.
use differential::answer::Named;
use differential::compare::{evaluate, full_reads, on_a_large_stack, patches, statement_reads, tokens, words};
use differential::escapes::escaped;
use differential::listings::one_line;
use differential::model::Rules;
use differential::patch_call::Call;
use differential::{known_patches, recorded};
use laqhoncu::{Patched, Refusal};

fn patch(call: &Call, source: &mut [u8], listing: &mut [u8]) -> Result<Patched, Refusal> {
    laqhoncu::patch(call.source, call.listing, call.place, call.text, source, listing)
}

fn named(word: &[u8]) -> Named {
    Named { operation: laqhoncu::operation(word), name: laqhoncu::name(word), directive: laqhoncu::directive(word) }
}

/// The refusals that a reading can end with.
fn of_reads(rules: Rules) -> Vec<u8> {
    let mut list = vec![1, 2, 3, 5, 10, 11, 12, 13, 14, 15, 16, 17, 20, 21, 22, 23, 24, 25, 26, 30, 31, 32, 33, 34];
    list.extend(rules.counts_fit.then_some(60));
    list
}

fn main() {
    let (mut long, mut rules) = (false, Rules::NOW);
    for word in std::env::args().skip(1) {
        match word.as_str() {
            "--long" => long = true,
            "--base" => rules = Rules::BASE,
            "--suffix-first" => rules = rules.suffix_first(),
            _ => panic!("compare [--long] [--base] [--suffix-first]"),
        }
    }
    let begun = std::time::Instant::now();
    recorded();
    if rules.letter_first {
        recorded_respelled();
    }
    println!("known patches: {} calls, all as the rules say", known_patches::replay(rules, patch));
    let (values, met) = evaluate::all(if long { 10_000_000 } else { 500_000 }, laqhoncu::evaluate);
    assert!(met.iter().all(|count| *count > 100), "too little was compared");
    println!("evaluate: {values} calls, {} refused with 50, {} with 51: all as exact arithmetic says", met[0], met[1]);
    tokens_and_words(rules, long);
    on_a_large_stack(move || {
        reads(rules, long);
        patches(rules, long);
    });
    if cfg!(not(original)) {
        println!("the original's sources are not there (MRC_SOURCE): only its recorded answers were replayed");
    }
    println!("compared in {:.1} s", begun.elapsed().as_secs_f64());
}

/// Panics where a recorded list has another answer. Gives how many it has.
fn replayed(list: &str, said: impl Fn(&[u8]) -> String) -> usize {
    let asked = recorded::entries(list).map(|(source, expected)| {
        let said = said(&source);
        assert!(said == expected, "{:?}\nrecorded {expected}\nsaid     {said}", escaped(&source));
    });
    asked.count()
}

fn recorded() {
    let tokens = replayed(recorded::TOKENS, |source| recorded::tokens_of(source, &mut laqhoncu::token));
    let words = replayed(recorded::WORDS, |word| recorded::names_of(word, &mut named));
    let reads = replayed(recorded::READS, |source| one_line(&laqhoncu::listing(source)));
    assert!(tokens > 1000 && words > 500 && reads > 500, "the recorded lists are short");
    println!("recorded answers: tokens of {tokens} sources, {words} words, {reads} full reads, all as recorded");
}

fn recorded_respelled() {
    let tokens = replayed(recorded::RESPELLED_TOKENS, |source| recorded::tokens_of(source, &mut laqhoncu::token));
    let reads = replayed(recorded::RESPELLED_READS, |source| one_line(&laqhoncu::listing(source)));
    assert!(tokens > 300 && reads > 100, "the recorded lists are short");
    println!("recorded answers to other spellings of runs: tokens of {tokens} sources, {reads} full reads, all as recorded");
}

fn tokens_and_words(rules: Rules, long: bool) {
    let mut compare = tokens::Compare::new(rules, laqhoncu::token);
    compare.all(if long { 10 } else { 1 });
    let [larger_digit, too_large] = [30, 31].map(|number| compare.met.times(number));
    assert!(compare.sources > 3_000_000 && larger_digit > 0 && too_large > 0, "too little was compared");
    println!(
        "tokens: {} sources, {} tokens, {} changed by a letter behind a run, {larger_digit} refused with 30, {too_large} with 31: \
         all as the model's",
        compare.sources, compare.tokens, compare.lettered
    );
    #[cfg(original)]
    println!("original, tokens: {}", compare.asked.words());

    let mut compare = tokens::Compare::new(rules, laqhoncu::token_read);
    compare.calls();
    compare.met.assert(&[1, 2, 30, 31, 42]);
    println!(
        "token reads: {} calls, {} changed by a letter behind a run, at and beyond the end, sources too long or not ASCII: \
         all as the model's",
        compare.tokens, compare.lettered
    );
    #[cfg(original)]
    println!("original, token reads: {}", compare.asked.words());

    let mut compare = words::Compare::new(rules, named);
    compare.all(if long { 4 } else { 3 });
    assert!(compare.words > 300_000 && compare.named > 4000, "too little was compared");
    println!("names: {} words, {} of them names: all as the model's", compare.words, compare.named);
    #[cfg(original)]
    println!("original, names: {}", compare.asked.words());
}

fn reads(rules: Rules, long: bool) {
    let mut compare = full_reads::Compare::new(rules, laqhoncu::full_read);
    #[cfg(feature = "lean")]
    {
        compare = compare.beside(laqhoncu::full_read_lean);
    }
    compare.all(if long { 10 } else { 1 });
    let (count, numbers) = (compare.count, of_reads(rules));
    assert!(count.sources > if long { 5_000_000 } else { 300_000 } && count.accepted > 100_000, "too little was compared");
    compare.met.assert(&numbers);
    println!(
        "full reads: {} sources, {} accepted with {} bytes of listings, {} changed by a letter behind a run, {} refused with 60, \
         the others with each of {} numbers: all as the model's",
        count.sources,
        count.accepted,
        count.records_bytes,
        count.lettered,
        compare.met.times(60),
        numbers.iter().filter(|number| **number != 60).count()
    );
    #[cfg(feature = "lean")]
    println!("lean full reads: {} calls, all that the full read was asked: all as the model's", count.second);
    #[cfg(original)]
    println!("original, full reads: {}", compare.asked.words());

    let mut compare = statement_reads::Compare::new(rules, laqhoncu::statement_read);
    compare.all(if long { 10 } else { 1 });
    assert!(compare.reads > 300_000 && compare.written > 100_000 && compare.none_left > 1000, "too little was compared");
    compare.met.assert(&numbers);
    compare.met.assert(&[42]);
    println!(
        "statement reads: {} calls, {} statements, {} changed by a letter behind a run, {} refused with 60, {} times none left: \
         all as the model's",
        compare.reads,
        compare.written,
        compare.lettered,
        compare.met.times(60),
        compare.none_left
    );
    #[cfg(original)]
    println!("original, statement reads: {}", compare.asked.words());
}

fn patches(rules: Rules, long: bool) {
    let count = patches::compare(rules, if long { 1_250_000 } else { 125_000 }, patch);
    assert!(count.calls > 100_000 && count.accepted > 10_000, "too little was compared");
    assert!(count.replaced_foreign > 1000 && count.too_long > 100 && count.old_listings > 1000, "too little was compared");
    // A new line that is refused with 34 is refused with 40 before.
    count.met.assert(&of_reads(rules).into_iter().filter(|number| *number != 34).collect::<Vec<_>>());
    count.met.assert(&[40, 41, 42, 43]);
    println!(
        "patches: {} calls, {} edits accepted, {} refused with 60, buffers too short by a byte among them: all as the model's",
        count.calls,
        count.accepted,
        count.met.times(60)
    );
    println!(
        "patches with bytes above 127: {} calls, {} of them with such bytes in the replaced line alone; \
         {} calls with a source that is too long",
        count.foreign, count.replaced_foreign, count.too_long
    );
    println!("patches with a listing from before 60: {} calls, the old lines not read again", count.old_listings);
    println!(
        "patches with a letter behind a run: {} calls that it changes, {} of them with a listing from before",
        count.lettered, count.suffix_listings
    );
    #[cfg(original)]
    println!("original, sources of patches: {}", count.asked.words());
    let (calls, refused) = patches::damaged(rules, patch);
    assert!(refused > 1000 && calls - refused > 1000, "too little was compared");
    println!("damaged listings: {calls} calls, {refused} refused with 41: all as a second checker says");
    println!("order of refusals: {} sets of causes, each refused by its first", patches::order(rules, patch));
    let wanted = if long { 3_010_000 } else { 301_000 };
    let [calls, accepted, refused, open] = patches::as_full_read(rules, wanted, patch, laqhoncu::full_read);
    assert!(accepted > 50_000 && refused > 10_000 && open > 1000, "too little was compared");
    println!(
        "patch and full read: {calls} edits of accepted sources, {accepted} accepted, {refused} refused, \
         all as the full read of the edited source; {open} refused with 40"
    );
}
