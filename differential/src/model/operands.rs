//! Operands: registers, segments, addresses in brackets, far addresses, expressions.
use super::reader::{refuse, Reader, Step};
use super::words::{register_number, segment_field, segment_number, size_field};
use laqhoncu::{Name, Refusal, Register, Segment, Size, TokenKind};

impl Reader<'_> {
    /// The operand that begins at the token ahead.
    pub fn operand(&mut self) -> Step {
        // Of several size words the last counts: RULES 6.3.
        let mut size = None;
        while let Some(Name::Size(word)) = self.name() {
            size = Some(word);
            self.take()?;
        }
        let from = self.place();
        match self.name() {
            Some(Name::Register(register)) => {
                self.put(b"OR", self.span(), &[register_number(register)]);
                self.take()
            }
            Some(Name::Segment(segment)) => {
                self.put(b"OS", self.span(), &[segment_number(segment)]);
                self.take()
            }
            _ if self.is(b'[') => self.bracket(size),
            _ => {
                self.expression()?;
                // Far: RULES 6.4.
                if self.is(b':') {
                    self.take()?;
                    self.expression()?;
                    self.put(b"OF", self.since(from), &[]);
                } else {
                    self.put(b"OI", self.since(from), &[]);
                }
                Ok(())
            }
        }
    }

    /// The bracket that is the token ahead.
    fn bracket(&mut self, size: Option<Size>) -> Step {
        let from = self.place();
        self.take()?;
        let (mut segment, mut encoding, mut displacement) = (None, None, false);
        // What a bracket may begin with: RULES 6.5.
        match self.kind() {
            TokenKind::Number(_) => {
                self.expression()?;
                displacement = true;
            }
            TokenKind::Identifier => {
                segment = self.override_ahead()?;
                encoding = self.registers()?;
                if !self.is(b']') {
                    self.expression()?;
                    displacement = true;
                }
            }
            _ => return self.refuse(24),
        }
        if !self.is(b']') {
            return self.refuse(13);
        }
        self.take()?;
        let span = self.since(from);
        let (size, segment) = (size_field(size), segment_field(segment));
        match encoding {
            Some(encoding) => self.put(b"OX", span, &[encoding, displacement as u32, size, segment]),
            None if displacement => self.put(b"OD", span, &[size, segment]),
            // 32, over the whole bracket, once the token behind it is read: RULES 6.5, 11.3.
            None => return refuse(32, span),
        }
        Ok(())
    }

    /// The override: a segment and its colon. RULES 6.5.
    fn override_ahead(&mut self) -> Step<Option<Segment>> {
        let Some(Name::Segment(segment)) = self.name() else { return Ok(None) };
        self.take()?;
        if !self.is(b':') {
            return self.refuse(12);
        }
        self.take()?;
        Ok(Some(segment))
    }

    fn register(&self) -> Option<Register> {
        match self.name() {
            Some(Name::Register(register)) => Some(register),
            _ => None,
        }
    }

    /// The registers of an address: the number of their encoding, or None where no register is ahead. RULES 6.5, 6.6.
    fn registers(&mut self) -> Step<Option<u32>> {
        let from = self.place();
        let Some(first) = self.register() else { return Ok(None) };
        let alone = match first {
            Register::Si => 4,
            Register::Di => 5,
            Register::Bp => 6,
            Register::Bx => 7,
            // The original's span ends where the token before the register ended.
            _ => return Err(Refusal { first: Some(first), ..at(25, from, self.state.end) }),
        };
        self.take()?;
        if !self.is(b'+') {
            return Ok(Some(alone));
        }
        let plus = self.state;
        self.take()?;
        // No register behind the plus: it belongs to a displacement, so back to it. RULES 4.3, 6.5.
        let Some(second) = self.register() else {
            self.state = plus;
            return Ok(Some(alone));
        };
        if !matches!(second, Register::Si | Register::Di) {
            return Err(Refusal { first: Some(first), second: Some(second), ..at(25, from, self.span().to) });
        }
        self.take()?;
        match (first, second) {
            (Register::Bx, Register::Si) => Ok(Some(0)),
            (Register::Bx, _) => Ok(Some(1)),
            (Register::Bp, Register::Si) => Ok(Some(2)),
            (Register::Bp, _) => Ok(Some(3)),
            // 33, over both registers, once the token behind them is read: RULES 6.5, 11.3.
            _ => refuse(33, self.since(from)),
        }
    }
}

fn at(number: u8, from: usize, to: usize) -> Refusal {
    Refusal::at(number, from, to)
}
