//! The 64-bit meaning of rule expressions.

use crate::tree::{Expression, Operation, RegisterName};

/// The offset of the type byte of a register expression without a value.
#[derive(Clone, Copy, Debug, PartialEq, Eq)]
pub struct Unread {
    pub at: usize,
}

/// Bit 0 is the leftmost of the 64.
pub fn bit_is_set(word: u64, bit: u8) -> bool {
    word << bit >> 63 == 1
}

impl Expression {
    /// The expression's value, or the first register expression in byte order
    /// that has none. `value` gives the reading of a register.
    ///
    /// Operands are taken in byte order and none is skipped, so a register
    /// counts also where the result does not depend on it.
    pub fn evaluate(&self, value: &impl Fn(RegisterName) -> Option<u64>) -> Result<u64, Unread> {
        match &self.operation {
            Operation::Register(name) => value(*name).ok_or(Unread { at: self.at }),
            Operation::Constant(constant) => Ok(*constant),
            Operation::And(operands) => operands.iter().try_fold(u64::MAX, |result, operand| {
                Ok(result & operand.evaluate(value)?)
            }),
            Operation::Or(operands) => operands
                .iter()
                .try_fold(0, |result, operand| Ok(result | operand.evaluate(value)?)),
            Operation::Not(operand) => Ok(!operand.evaluate(value)?),
            Operation::ShiftLeft(shift, operand) => {
                let word = operand.evaluate(value)?;
                Ok(word.checked_shl(u32::from(*shift)).unwrap_or(0))
            }
            Operation::ShiftRight(shift, operand) => {
                let word = operand.evaluate(value)?;
                Ok(word.checked_shr(u32::from(*shift)).unwrap_or(0))
            }
        }
    }
}

#[cfg(test)]
mod tests {
    use super::*;

    fn constant(value: u64) -> Expression {
        plain(Operation::Constant(value))
    }

    fn plain(operation: Operation) -> Expression {
        Expression { at: 0, operation }
    }

    fn left(shift: u8, operand: Expression) -> Expression {
        plain(Operation::ShiftLeft(shift, Box::new(operand)))
    }

    fn right(shift: u8, operand: Expression) -> Expression {
        plain(Operation::ShiftRight(shift, Box::new(operand)))
    }

    fn value(expression: Expression) -> u64 {
        expression.evaluate(&|_| None).unwrap()
    }

    #[test]
    fn bits_count_from_the_left() {
        assert!(bit_is_set(0x8000_0000_0000_0000, 0));
        assert!(bit_is_set(1, 63));
        assert!(!bit_is_set(1, 0));
        assert!(!bit_is_set(0x8000_0000_0000_0000, 63));
    }

    #[test]
    fn shifts_lose_bits_beyond_the_register() {
        assert_eq!(value(right(8, left(8, constant(0xFFFF)))), 0xFFFF);
        assert_eq!(value(left(1, constant(u64::MAX))), u64::MAX - 1);
        assert_eq!(value(right(1, constant(u64::MAX))), u64::MAX >> 1);
        assert_eq!(value(left(63, constant(u64::MAX))), 1 << 63);
        for shift in [64, 65, 127, 128, 255] {
            assert_eq!(value(left(shift, constant(u64::MAX))), 0);
            assert_eq!(value(right(shift, constant(u64::MAX))), 0);
        }
    }

    #[test]
    fn not_inverts_all_bits() {
        let not = plain(Operation::Not(Box::new(constant(0xFF))));
        assert_eq!(value(not), 0xFFFF_FFFF_FFFF_FF00);
    }

    #[test]
    fn and_or_take_all_operands() {
        let operands = vec![constant(0b1110), constant(0b0111), constant(0b1010)];
        assert_eq!(value(plain(Operation::And(operands.clone()))), 0b0010);
        assert_eq!(value(plain(Operation::Or(operands))), 0b1111);
    }

    #[test]
    fn a_register_under_and_with_zero_counts() {
        let register = Expression {
            at: 7,
            operation: Operation::Register(RegisterName { id: 1, instance: 0 }),
        };
        let and = plain(Operation::And(vec![constant(0), register]));
        assert_eq!(and.evaluate(&|_| None), Err(Unread { at: 7 }));
        assert_eq!(and.evaluate(&|_| Some(9)), Ok(0));
    }
}
