//! What words name, with and without dots; and `evaluate` at its edges.
use differential::answer::Named;
use differential::model::{self, Rules};
use differential::sources::words;
use laqhoncu::Operator;

/// The spellings and the operations that they name: RULES 3.6.
#[test]
fn spellings() {
    let mut list = words::spellings();
    list.sort();
    list.dedup();
    assert_eq!((list.len(), model::OPERATIONS.len()), (117, 99));
    assert_eq!(["mov", "Jmp", "SALC", "sal"].map(|word| model::operation(word.as_bytes())), [Some(0), Some(59), Some(98), None]);
    for word in list.into_iter().chain(words::OTHERS) {
        let named = Rules::NOW.named(word.as_bytes());
        assert_eq!(
            [named.operation.is_some(), named.name.is_some(), named.directive.is_some()].iter().filter(|is| **is).count(),
            1,
            "{word}"
        );
        assert_eq!(Rules::NOW.named(word.to_uppercase().as_bytes()), named, "{word}");
    }
}

/// Lookup is of the whole name: no name with a dot names anything.
#[test]
fn dotted_words() {
    for word in words::spellings().into_iter().chain(words::OTHERS) {
        assert_ne!(Rules::NOW.named(word.as_bytes()), Named::default(), "{word}");
        for at in 0..=word.len() {
            let dotted = format!("{}.{}", &word[..at], &word[at..]);
            assert_eq!(Rules::NOW.named(dotted.as_bytes()), Named::default(), "{dotted}");
        }
        for dotted in [format!("{word}.b"), format!("{word}.."), format!("a.{word}"), format!("{word}.{word}")] {
            assert_eq!(Rules::NOW.named(dotted.as_bytes()), Named::default(), "{dotted}");
        }
    }
}

#[test]
fn evaluate() {
    let said = |operator, left, right| model::evaluate(operator, left, right).map_err(|refusal| refusal.number);
    assert_eq!(said(Operator::Divide, -7, 2), Ok(-3));
    assert_eq!(said(Operator::Divide, i32::MIN, -1), Err(50));
    assert_eq!(said(Operator::Divide, 0, 0), Err(51));
    assert_eq!(said(Operator::Multiply, 65536, -32768), Ok(i32::MIN));
    assert_eq!(said(Operator::Multiply, 65536, 32768), Err(50));
    assert_eq!(said(Operator::Add, i32::MAX, 1), Err(50));
    assert_eq!(said(Operator::Subtract, i32::MIN, 1), Err(50));
    assert_eq!(said(Operator::Subtract, -1, i32::MAX), Ok(i32::MIN));
}
