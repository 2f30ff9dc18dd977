//! Expressions, RULES 5: sums of products of operands, each grouped to the left; a prefix binds closest.
use super::reader::{refuse, Reader, Step};
use laqhoncu::{Span, TokenKind};

/// How tight an operator binds.
const SUM: u8 = 1;
const PRODUCT: u8 = 2;
const PREFIX: u8 = 3;

impl Reader<'_> {
    /// An expression that is inside no other.
    pub fn expression(&mut self) -> Step {
        self.at_depth(1, SUM)
    }

    /// The expression that begins at the token ahead, up to an operator that binds less than `least`.
    fn at_depth(&mut self, depth: usize, least: u8) -> Step {
        // 3, at the token ahead, before another is read: RULES 5.3, 11.3.
        if depth > self.rules.depth {
            return self.refuse(3);
        }
        let from = self.place();
        match self.kind() {
            // No record of its own: RULES 5.4.
            TokenKind::Punctuation(b'(') => {
                self.take()?;
                self.at_depth(depth + 1, SUM)?;
                if !self.is(b')') {
                    return self.refuse(14);
                }
                self.take()?;
            }
            // 22, once the token behind the operator is read: RULES 11.3.
            TokenKind::Punctuation(b'*' | b'/') => {
                self.take()?;
                return refuse(22, Span { from: 0, to: 0 });
            }
            TokenKind::Punctuation(sign @ (b'+' | b'-')) => {
                self.take()?;
                self.at_depth(depth + 1, PREFIX)?;
                self.put(b"PF", self.since(from), &[operator(sign)]);
            }
            _ => self.atom()?,
        }
        while let TokenKind::Punctuation(sign @ (b'+' | b'-' | b'*' | b'/')) = self.kind() {
            let level = if matches!(sign, b'+' | b'-') { SUM } else { PRODUCT };
            if level < least {
                break;
            }
            self.take()?;
            // To the left: the right operand ends before an operator of the same level.
            self.at_depth(depth + 1, level + 1)?;
            self.put(b"IN", self.since(from), &[operator(sign)]);
        }
        Ok(())
    }

    /// An atom: RULES 5.1.
    fn atom(&mut self) -> Step {
        let span = self.span();
        match self.kind() {
            TokenKind::Number(value) => {
                self.put(b"VC", span, &[value as u32]);
                self.take()
            }
            TokenKind::Text { closed: false } => self.refuse(16),
            TokenKind::Text { closed: true } => {
                let [_, character, _] = self.text() else { return self.refuse(17) };
                self.put(b"VC", span, &[*character as u32]);
                self.take()
            }
            TokenKind::Identifier => {
                self.put(b"VL", span, &[]);
                self.take()
            }
            // The span is the first `$`, also of `$$`: RULES 5.4.
            TokenKind::Punctuation(b'$') => {
                self.take()?;
                if !self.is(b'$') {
                    self.put(b"VI", span, &[]);
                    return Ok(());
                }
                self.put(b"VS", span, &[]);
                self.take()
            }
            _ => self.refuse(21),
        }
    }
}

/// The number of an operator: RULES 8.3.
fn operator(sign: u8) -> u32 {
    match sign {
        b'+' => 0,
        b'-' => 1,
        b'*' => 2,
        _ => 3,
    }
}
