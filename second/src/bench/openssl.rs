//! The figures of an installed OpenSSL, if there is one.

use std::process::{Command, Stdio};

/// Megabytes per second of one algorithm on buffers of `bytes`.
pub fn speed(algorithm: &str, bytes: usize) -> Option<f64> {
    let output = Command::new("openssl")
        .args([
            "speed",
            "-bytes",
            &bytes.to_string(),
            "-seconds",
            "1",
            "-evp",
            algorithm,
        ])
        .stdin(Stdio::null())
        .stderr(Stdio::null())
        .output()
        .ok()?;
    parse(&String::from_utf8(output.stdout).ok()?)
}

/// The last line ends with thousands of bytes per second, as `123.45k`.
fn parse(text: &str) -> Option<f64> {
    let last = text.lines().last()?.split_whitespace().last()?;
    let thousands: f64 = last.strip_suffix('k')?.parse().ok()?;
    Some(thousands / 1000.0)
}

#[cfg(test)]
mod tests {
    #[test]
    fn reads_the_last_figure() {
        let text = "type             8192 bytes\nsha256          1234500.00k\n";
        assert_eq!(super::parse(text), Some(1234.5));
        assert_eq!(super::parse(""), None);
    }
}
