//! Prototypes: none is known, as document 01 says.

pub struct Proto {
    pub params: &'static [&'static str],
}

pub fn lookup(_name: &str) -> Option<&'static Proto> {
    None
}
