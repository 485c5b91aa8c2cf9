//! The parts of a test program: all of them, or those that its arguments name.

pub type Part = (&'static str, fn());

pub fn run(parts: &[Part]) {
    let named: Vec<String> = std::env::args().skip(1).collect();
    for name in &named {
        assert!(parts.iter().any(|part| part.0 == name), "there is no part {name}");
    }
    for (name, part) in parts {
        if named.is_empty() || named.iter().any(|word| word == name) {
            part();
        }
    }
}
