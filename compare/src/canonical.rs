//! The canonical line: "at most one unknown run, upper-case residues, masses
//! always signed, scores signed only when negative, decimals as many as
//! written".

use crate::line::{Bracket, Content, Kind, Label, Line, Number, Part, Section, Site};

/// The canonical line of an accepted line.
pub fn canonical(line: &Line) -> Vec<u8> {
    let mut out = Vec::new();
    write_canonical(line, &mut out);
    out
}

/// Appends the canonical line of an accepted line.
pub fn write_canonical(line: &Line, out: &mut Vec<u8>) {
    Writer {
        line,
        written: 0,
        out,
    }
    .line();
}

struct Writer<'w> {
    line: &'w Line<'w>,
    /// How many brackets are written.
    written: usize,
    out: &'w mut Vec<u8>,
}

impl Writer<'_> {
    fn line(&mut self) {
        self.declarations();
        if self.brackets(Kind::Unknown, 0) {
            self.out.push(b'?');
        }
        self.brackets(Kind::Labile, 0);
        if self.brackets(Kind::NTerminal, 0) {
            self.out.push(b'-');
        }
        self.sequence();
        let c_terminus = self.line.c_terminus();
        if self.next(Kind::CTerminal, c_terminus).is_some() {
            self.out.push(b'-');
            self.brackets(Kind::CTerminal, c_terminus);
        }
    }

    /// Each `<[mod]@K,N-term>`.
    fn declarations(&mut self) {
        while let Some(&bracket) = self.next(Kind::Declared, 0) {
            self.out.push(b'<');
            self.bracket(&bracket);
            self.out.push(b'@');
            for (index, &site) in self.line.places_of(&bracket).iter().enumerate() {
                if index > 0 {
                    self.out.push(b',');
                }
                match site {
                    Site::Letter(letter) => self.out.push(letter),
                    Site::NTerminus => self.out.extend_from_slice(b"N-term"),
                    Site::CTerminus => self.out.extend_from_slice(b"C-term"),
                }
            }
            self.out.push(b'>');
            self.written += 1;
        }
    }

    fn sequence(&mut self) {
        let residues = &self.line.residues;
        for (index, residue) in residues.iter().enumerate() {
            let position = index + 1;
            match residue.section {
                Section::RangeFirst => self.out.push(b'('),
                Section::AmbiguousFirst => self.out.extend_from_slice(b"(?"),
                _ => {}
            }
            self.out.push(residue.letter);
            self.brackets(Kind::Residue, position);
            let following = residues.get(position).map(|next| next.section);
            self.close_group(residue.section, following, position);
        }
    }

    /// Closes the group of a residue if the next residue is none of its.
    fn close_group(&mut self, section: Section, following: Option<Section>, position: usize) {
        let further = match section {
            Section::Plain => return,
            Section::RangeFirst | Section::RangeFurther => Section::RangeFurther,
            Section::AmbiguousFirst | Section::AmbiguousFurther => Section::AmbiguousFurther,
        };
        if following == Some(further) {
            return;
        }
        self.out.push(b')');
        if further == Section::RangeFurther {
            self.brackets(Kind::Range, position);
        }
    }

    /// The next bracket, if it is of this kind and ends at this position.
    fn next(&self, kind: Kind, last: usize) -> Option<&Bracket> {
        self.line
            .brackets
            .get(self.written)
            .filter(|bracket| bracket.kind == kind && bracket.last == last)
    }

    /// Writes the next brackets of this kind and position; whether there are
    /// any.
    fn brackets(&mut self, kind: Kind, last: usize) -> bool {
        let first = self.written;
        while let Some(&bracket) = self.next(kind, last) {
            self.bracket(&bracket);
            self.written += 1;
        }
        self.written > first
    }

    fn bracket(&mut self, bracket: &Bracket) {
        let (opening, closing) = match bracket.kind {
            Kind::Labile => (b'{', b'}'),
            _ => (b'[', b']'),
        };
        self.out.push(opening);
        for (index, part) in self.line.parts_of(bracket).iter().enumerate() {
            if index > 0 {
                self.out.push(b'|');
            }
            self.part(part);
        }
        self.out.push(closing);
        if bracket.count > 1 {
            self.out.push(b'^');
            write_decimal(u64::from(bracket.count), self.out);
        }
    }

    fn part(&mut self, part: &Part) {
        self.out.extend_from_slice(part.key.spelling());
        match &part.content {
            Content::Mass(mass) => {
                if mass.millionths >= 0 {
                    self.out.push(b'+');
                }
                write_number(*mass, self.out);
            }
            Content::Text(text) => self.out.extend_from_slice(text),
            Content::Reference => {}
            Content::Composition(one) => self.out.extend_from_slice(&one.text),
        }
        if let Some(label) = &part.label {
            self.label(label);
        }
    }

    fn label(&mut self, label: &Label) {
        self.out.push(b'#');
        self.out.extend_from_slice(label.name);
        if let Some(score) = label.score {
            self.out.push(b'(');
            write_number(score, self.out);
            self.out.push(b')');
        }
    }
}

/// A number, signed only when negative, with as many decimals as it keeps.
fn write_number(number: Number, out: &mut Vec<u8>) {
    if number.millionths < 0 {
        out.push(b'-');
    }
    let size = number.millionths.unsigned_abs();
    write_decimal(size / Number::WHOLE, out);
    if number.decimals == 0 {
        return;
    }
    out.push(b'.');
    let mut rest = size % Number::WHOLE;
    for _ in 0..number.decimals {
        rest *= 10;
        out.push(b'0' + (rest / Number::WHOLE) as u8);
        rest %= Number::WHOLE;
    }
}

/// A whole number in decimal digits.
pub fn write_decimal(value: u64, out: &mut Vec<u8>) {
    const MOST_DIGITS: usize = 20;
    let mut digits = [0; MOST_DIGITS];
    let mut first = MOST_DIGITS;
    let mut rest = value;
    loop {
        first -= 1;
        digits[first] = b'0' + (rest % 10) as u8;
        rest /= 10;
        if rest == 0 {
            break;
        }
    }
    out.extend_from_slice(&digits[first..]);
}
