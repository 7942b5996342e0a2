//! A stand-in for customasm's `StringStyler`. Its reports name the type; no exporter calls it.

pub struct StringStyler {
    pub result: String,
}

impl StringStyler {
    pub fn new(_use_colors: bool) -> StringStyler {
        StringStyler { result: String::new() }
    }

    pub fn add(&mut self, _text: &str) {}
    pub fn add_char(&mut self, _c: char) {}
    pub fn addln(&mut self, _text: &str) {}
    pub fn indent(&mut self, _columns: usize) {}
    pub fn reset(&mut self) {}
    pub fn bold(&mut self) {}
    pub fn red(&mut self) {}
    pub fn yellow(&mut self) {}
    pub fn cyan(&mut self) {}
    pub fn gray(&mut self) {}
    pub fn white(&mut self) {}
}
