//! The original's trees as a listing: the records of a line, its operands and its expressions.
use super::names::number_of_register;
use crate::listings::Listing;
use mrc_compiler::ast::{self, DataSize, Expression, Line, Operand, Operands, Value};

fn put_expression(out: &mut Listing, expression: &Expression) {
    let [f, t] = out.span(expression.span());
    match expression {
        Expression::PrefixOperator(_, operator, right) => {
            put_expression(out, right);
            out.record("PF", &[f, t, *operator as u32]);
        }
        Expression::InfixOperator(_, operator, left, right) => {
            put_expression(out, left);
            put_expression(out, right);
            out.record("IN", &[f, t, *operator as u32]);
        }
        Expression::Value(_, Value::Constant(value)) => out.record("VC", &[f, t, *value as u32]),
        Expression::Value(_, Value::Label(_)) => out.record("VL", &[f, t]),
        Expression::Value(_, Value::InstructionStart) => out.record("VI", &[f, t]),
        Expression::Value(_, Value::SectionStart) => out.record("VS", &[f, t]),
    }
}

fn put_operand(out: &mut Listing, operand: &Operand) {
    let [f, t] = out.span(operand.span());
    let size_of = |size: &Option<DataSize>| size.map_or(0, |size| 1 + size as u32);
    let segment_of = |segment: &Option<ast::Segment>| segment.map_or(0, |segment| 1 + segment.encoding() as u32);
    match operand {
        Operand::Immediate(_, expression) => {
            put_expression(out, expression);
            out.record("OI", &[f, t]);
        }
        Operand::Direct(_, expression, size, segment) => {
            put_expression(out, expression);
            out.record("OD", &[f, t, size_of(size), segment_of(segment)]);
        }
        Operand::Indirect(_, encoding, displacement, size, segment) => {
            displacement.iter().for_each(|expression| put_expression(out, expression));
            let has = displacement.is_some() as u32;
            out.record("OX", &[f, t, encoding.encoding() as u32, has, size_of(size), segment_of(segment)]);
        }
        // The original holds the offset first; the source has the segment first.
        Operand::Far(_, offset, segment) => {
            put_expression(out, segment);
            put_expression(out, offset);
            out.record("OF", &[f, t]);
        }
        Operand::Register(_, register) => out.record("OR", &[f, t, number_of_register(register) as u32]),
        Operand::Segment(_, segment) => out.record("OS", &[f, t, segment.encoding() as u32]),
    }
}

/// The records of a line, its children before it.
pub fn put_line(out: &mut Listing, line: &Line) {
    let [f, t] = out.span(line.span());
    match line {
        Line::Label(_) => out.record("LL", &[f, t]),
        Line::Instruction(instruction) => {
            let count = match &instruction.operands {
                Operands::None(_) => 0,
                Operands::Destination(_, destination) => {
                    put_operand(out, destination);
                    1
                }
                Operands::DestinationAndSource(_, destination, source) => {
                    put_operand(out, destination);
                    put_operand(out, source);
                    2
                }
            };
            let [from, to] = out.span(instruction.operands.span());
            out.record("LI", &[f, t, instruction.operation as u32, count, from, to]);
        }
        Line::Data(_, bytes) => {
            out.record("LD", &[f, t, bytes.len() as u32]);
            out.bytes.extend_from_slice(bytes);
        }
        Line::Constant(_, expression) => {
            put_expression(out, expression);
            out.record("LC", &[f, t]);
        }
        Line::Times(_, count, content) => {
            put_expression(out, count);
            put_line(out, content);
            out.record("LT", &[0, 0]);
        }
    }
}
