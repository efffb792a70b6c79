//! What is told of a byte of a key that is no hexadecimal digit: what can be printed stands as it is.

use fernsponge::Sheet;

#[test]
fn bytes_that_are_no_digits() {
    for (text, row, column, said) in [
        (
            "Key,'03',",
            0,
            1,
            "the start key has ''', which is no hexadecimal digit",
        ),
        (
            "Key,\\x,",
            0,
            1,
            "the start key has '\\', which is no hexadecimal digit",
        ),
    ] {
        let error = Sheet::read(text.as_bytes()).unwrap_err();
        assert_eq!(
            error.to_string(),
            format!("row {row}, column {column}, counted from 0: {said} (refusal 12)")
        );
    }
}
