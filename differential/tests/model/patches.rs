//! The patch: the known ones, and that it agrees with the full read; and which listings are well-formed.
use differential::compare::{on_a_large_stack, Met};
use differential::escapes::escaped;
use differential::known_patches;
use differential::listings::records;
use differential::model::{self, Rules};
use differential::patch_call::{shown, Call};
use differential::sources::patches;

/// The rule of the patch says what RULES 10 says in words.
#[test]
fn known_patches() {
    for rules in [Rules::BASE, Rules::NOW, Rules::NOW.suffix_first()] {
        for known in known_patches::under(rules) {
            assert_eq!(rules.patch(&known.call(), usize::MAX, usize::MAX), known.answer, "{}", shown(&known.call()));
        }
    }
    assert_eq!(known_patches::under(Rules::NOW).len() - known_patches::under(Rules::BASE).len(), 3 + 13 + 16);
    assert_eq!(known_patches::under(Rules::NOW).len() - known_patches::under(Rules::NOW.suffix_first()).len(), 16);
}

/// The rule of the patch gives what the full read of the edited source gives, wherever the old source is accepted, its listing
/// is its own, and no line leaves a `times` open. Listings of full reads are well-formed.
#[test]
fn patch_rule_and_full_read_agree() {
    on_a_large_stack(|| {
        let (mut accepted, mut refused, mut met) = (0, 0, Met::default());
        let mut agree = |call: &Call| {
            let said = Rules::NOW.patch(call, usize::MAX, usize::MAX);
            if let Err(refusal) = &said {
                met.add(refusal);
            }
            let own = Rules::NOW.full_read(call.source);
            if let Ok(listing) = &own {
                assert!(model::well_formed(listing, call.source.len()));
            }
            if own.is_err() || own.unwrap() != call.listing {
                return;
            }
            match said {
                Ok((edited, listing)) => {
                    accepted += 1;
                    assert_eq!(Rules::NOW.full_read(&edited), Ok(listing), "{}", escaped(&edited));
                }
                Err(refusal) if !matches!(refusal.number, 40 | 42 | 43) => {
                    refused += 1;
                    let edited = model::edited(call);
                    assert_eq!(Rules::NOW.full_read(&edited), Err(refusal), "{}", escaped(&edited));
                }
                Err(_) => {}
            }
        };
        patches::calls(100_000, &mut agree);
        assert!(accepted > 10_000 && refused > 10_000, "{accepted} and {refused}");
        met.assert(&[2, 3, 5, 40, 41, 42, 43, 60]);
    });
}

/// Listings that are well-formed and ones that are not, a rule each.
#[test]
fn well_formed_listings() {
    let good = ["", "ST 0; LL 0 1", "ST 0; LL 0 0; ST 1; LL 2 3", "ST 0; VC 6 7 2; VC 0 9 1; LL 1 1; LT 0 0; LT 0 0", "ST 9; LL 9 9"];
    let bad = [
        // no statement, no line, two lines, a child that is missing, one that is left
        "LL 0 1",
        "ST 0",
        "ST 0; ST 1; LL 1 2",
        "ST 0; LL 0 1; LL 1 2",
        "ST 0; LC 0 1",
        "ST 0; VC 0 1 5; VC 1 2 5; LC 0 2",
        "ST 0; VC 0 1 5; LT 0 0",
        "ST 0; LL 0 1; VC 0 1 5; LT 0 0",
        // places that don't rise, spans outside
        "ST 1; LL 1 2; ST 1; LL 1 2",
        "ST 1; LL 0 2",
        "ST 0; LL 2 1",
        "ST 0; LL 0 10",
        "ST 0; VC 0 1 2; LL 0 1; LT 0 1",
        // fields out of range
        "ST 0; LD 0 1 0",
        "ST 0; LI 0 1 99 0 1 1",
        "ST 0; LI 0 1 4 3 1 1",
        "ST 0; LI 0 1 4 0 1 10",
        "ST 0; OR 0 1 16; LI 0 1 4 1 0 1",
        "ST 0; VC 0 1 5; PF 0 1 2; LC 0 1",
    ];
    for (list, expected) in [(&good[..], true), (&bad[..], false)] {
        for text in list {
            assert_eq!(model::well_formed(&records(text), 9), expected, "{text}");
        }
    }
}
