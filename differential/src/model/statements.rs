//! Statements: labels, instructions, `equ`, `db` and `dw`, `times`, and the line ends between them.
use super::listing::put;
use super::reader::{refuse, Reader, Step};
use super::words::{directive, operation, REP, REPNE};
use laqhoncu::{Directive, TokenKind};

impl Reader<'_> {
    /// Reads the next statement, whose first record is ST; or says that none is left. RULES 7.9.
    pub fn statement(&mut self) -> Step<bool> {
        if !self.is_left()? {
            return Ok(false);
        }
        let place = self.place() as u32;
        put(&mut self.out, b"ST", &[place]);
        self.content(1)?;
        Ok(true)
    }

    /// Goes over line feeds; whether something is left then.
    fn is_left(&mut self) -> Step<bool> {
        while self.kind() == TokenKind::NewLine {
            self.take()?;
        }
        Ok(self.kind() != TokenKind::EndOfFile)
    }

    /// The statement at the token ahead, without ST; a `times` there would be the `nesting`th.
    fn content(&mut self, nesting: usize) -> Step {
        if self.kind() != TokenKind::Identifier {
            return self.refuse(20);
        }
        if let Some(operation) = operation(self.text()) {
            return self.instruction(operation);
        }
        match directive(self.text()) {
            Some(Directive::Equ) => self.constant(),
            Some(Directive::Db) => self.data(1),
            Some(Directive::Dw) => self.data(2),
            Some(Directive::Times) => self.times(nesting),
            None => self.label(),
        }
    }

    /// 10 where no line end is ahead; the end of the source is one. RULES 7.8.
    fn line_end(&mut self) -> Step {
        match self.kind() {
            TokenKind::NewLine => self.take(),
            TokenKind::EndOfFile => Ok(()),
            _ => self.refuse(10),
        }
    }

    /// A label, behind which the line may go on: RULES 7.2.
    fn label(&mut self) -> Step {
        self.put(b"LL", self.span(), &[]);
        self.take()?;
        if self.is(b':') {
            self.take()?;
        }
        Ok(())
    }

    fn instruction(&mut self, operation: u8) -> Step {
        let from = self.place();
        self.take()?;
        let (mut operands, mut count) = (self.since(self.state.end), 0);
        let prefix = matches!(operation, REP | REPNE);
        if !prefix && !self.at_line_end() {
            let first = self.place();
            self.operand()?;
            count = 1;
            if !self.at_line_end() {
                if !self.is(b',') {
                    return self.refuse(11);
                }
                self.take()?;
                self.operand()?;
                count = 2;
            }
            operands = self.since(first);
        }
        let span = self.since(from);
        if !prefix {
            self.line_end()?;
        }
        self.put(b"LI", span, &[operation as u32, count, operands.from as u32, operands.to as u32]);
        Ok(())
    }

    fn constant(&mut self) -> Step {
        let from = self.place();
        self.take()?;
        self.expression()?;
        let span = self.since(from);
        self.line_end()?;
        self.put(b"LC", span, &[]);
        Ok(())
    }

    /// A data line: RULES 7.6.
    fn data(&mut self, width: usize) -> Step {
        let word = self.span();
        self.take()?;
        let mut bytes = Vec::new();
        while !self.at_line_end() {
            match self.kind() {
                TokenKind::Punctuation(b',') => {}
                TokenKind::Text { closed: false } => return self.refuse(26),
                TokenKind::Text { closed: true } => {
                    let text = self.text();
                    bytes.extend_from_slice(&text[1..text.len() - 1]);
                }
                TokenKind::Number(value) => {
                    // 60, at the number, before the token behind it is read: RULES 7.6, 11.3.
                    let most = if width == 1 { 255 } else { 65535 };
                    if self.rules.counts_fit && value > most {
                        return self.refuse(60);
                    }
                    bytes.extend_from_slice(&value.to_le_bytes()[..width]);
                }
                _ => return self.refuse(15),
            }
            self.take()?;
        }
        if bytes.is_empty() {
            return refuse(23, word);
        }
        let span = self.since(word.from);
        self.line_end()?;
        self.put(b"LD", span, &[bytes.len() as u32]);
        self.out.extend(bytes);
        Ok(())
    }

    /// `times`, its count and its content: RULES 7.7.
    fn times(&mut self, nesting: usize) -> Step {
        // 5, at the word, before another is read: RULES 7.7, 11.3.
        if nesting > self.rules.nesting {
            return self.refuse(5);
        }
        let word = self.span();
        self.take()?;
        self.expression()?;
        if !self.is_left()? {
            return refuse(34, word);
        }
        self.content(nesting + 1)?;
        put(&mut self.out, b"LT", &[0, 0]);
        Ok(())
    }
}
