//! Numbers of 256ths as exact decimals.

/// A number of 256ths in steps, without trailing zeros. A 256th is 0.00390625, so eight decimals are enough.
pub fn steps(n: i64) -> String {
    let size = n.unsigned_abs();
    let sign = if n < 0 { "-" } else { "" };
    let (whole, rest) = (size / 256, size % 256);
    if rest == 0 {
        return format!("{sign}{whole}");
    }
    format!("{sign}{whole}.{:08}", rest * 390_625).trim_end_matches('0').to_string()
}

#[cfg(test)]
mod tests {
    use super::*;

    #[test]
    fn steps_are_exact() {
        let rows = [(0, "0"), (4608, "18"), (128, "0.5"), (-128, "-0.5"), (1, "0.00390625"), (-1, "-0.00390625"), (-4065, "-15.87890625")];
        for (n, text) in rows {
            assert_eq!(steps(n), text);
        }
        assert_eq!(steps(2560), "10");
        assert_eq!(steps(-32768), "-128");
        assert_eq!(steps(1_482_548), "5791.203125");
    }
}
