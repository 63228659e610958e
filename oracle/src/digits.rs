//! Numbers as they stand in a figure.

/// A whole number with a comma before every three digits.
pub fn grouped(number: u64) -> String {
    let digits = number.to_string();
    let mut out = String::new();
    for (k, digit) in digits.chars().enumerate() {
        if k > 0 && (digits.len() - k) % 3 == 0 {
            out.push(',');
        }
        out.push(digit);
    }
    out
}

#[cfg(test)]
mod tests {
    use super::*;

    #[test]
    fn commas() {
        let numbers = [0, 7, 999, 1_000, 65_160, 100_000, 3_229_200];
        let wanted = ["0", "7", "999", "1,000", "65,160", "100,000", "3,229,200"];
        assert_eq!(numbers.map(grouped), wanted);
    }
}
