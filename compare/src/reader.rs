//! The reader: "Reading tries 13, then 1 to 12 in that order; the lowest
//! number wins, at its first place in the line." (13 is for lent areas, and
//! this reader has none.) 21 comes "after 10" (document 02, L2), and so before
//! 11; 19 and 20 come "both after 12" (L1).
//!
//! One pass settles refusal 4 and notes the first places of 5 to 10 and of 21;
//! only a line that has none of them is asked about its labels (11, which the
//! pass has noted for counts only), then about its floating copies (12), and
//! then about its compositions (19, 20).

use crate::glycans::{cut, mass, spelled, Cutting};
use crate::line::{
    Bracket, Composition, Content, Key, Kind, Label, Line, Number, Part, Residue, Section, Site,
};

pub use crate::line::Refusal;

/// Reads one line, without the byte 10 that ends it.
pub fn read(line: &[u8]) -> Result<Line<'_>, Refusal> {
    check_bytes(line)?;
    let mut scanner = Scanner::new(line);
    scanner.line()?;
    scanner.faults.refuse_first(21)?;
    scanner.check_labels();
    scanner.faults.refuse_first(11)?;
    scanner.check_floaters()?;
    scanner.cut_compositions()?;
    Ok(scanner.read)
}

/// Refusals 1 to 3: "line empty", "line too long", "a byte outside 32 to 126".
fn check_bytes(line: &[u8]) -> Result<(), Refusal> {
    if line.is_empty() {
        return Err(Refusal::new(1, 0));
    }
    if line.len() > Line::LONGEST {
        return Err(Refusal::new(2, Line::LONGEST));
    }
    let is_outside = |byte: &u8| !(32..=126).contains(byte);
    // A look at all bytes at once is quicker than the search that is seldom
    // needed.
    if !line.iter().fold(false, |any, byte| any | is_outside(byte)) {
        return Ok(());
    }
    match line.iter().position(is_outside) {
        Some(place) => Err(Refusal::new(3, place)),
        None => Ok(()),
    }
}

/// The first places of refusals 5 to 11 and of 21.
struct Faults {
    places: [usize; Self::ORDER.len()],
}

impl Faults {
    /// The order of trying: 21 stands "after 10".
    const ORDER: [u8; 8] = [5, 6, 7, 8, 9, 10, 21, 11];
    const NOWHERE: usize = usize::MAX;

    fn none() -> Self {
        Self {
            places: [Self::NOWHERE; Self::ORDER.len()],
        }
    }

    fn note(&mut self, number: u8, place: usize) {
        for (one, first) in Self::ORDER.into_iter().zip(&mut self.places) {
            if one == number {
                *first = place.min(*first);
            }
        }
    }

    /// The number that is tried first wins, "at its first place in the line";
    /// those that are tried after `last` are not settled yet.
    fn refuse_first(&self, last: u8) -> Result<(), Refusal> {
        for (number, &place) in Self::ORDER.into_iter().zip(&self.places) {
            if place != Self::NOWHERE {
                return Err(Refusal::new(number, place));
            }
            if number == last {
                break;
            }
        }
        Ok(())
    }
}

/// How a part begins: "A part that starts as one kind is never tried as
/// another".
#[derive(Clone, Copy)]
enum Opening {
    Mass(Key),
    /// "`UNIMOD:` `MOD:` `XLMOD:` and digits"
    Number(Key),
    /// "`RESID:` `GNO:` and letters or digits"
    Accession(Key),
    Information,
    /// "`Glycan:` becomes a part"
    Composition,
    /// A key of refusal 8.
    Excluded,
    Name(Key),
}

/// "The key words and prefixes are matched in either case".
const KEY_WORDS: [(&[u8], Opening); 17] = [
    (b"U", Opening::Name(Key::U)),
    (b"M", Opening::Name(Key::M)),
    (b"R", Opening::Name(Key::R)),
    (b"X", Opening::Name(Key::X)),
    (b"G", Opening::Name(Key::G)),
    (b"C", Opening::Name(Key::C)),
    (b"Obs", Opening::Mass(Key::Obs)),
    (b"UNIMOD", Opening::Number(Key::Unimod)),
    (b"MOD", Opening::Number(Key::Mod)),
    (b"XLMOD", Opening::Number(Key::Xlmod)),
    (b"RESID", Opening::Accession(Key::Resid)),
    (b"GNO", Opening::Accession(Key::Gno)),
    (b"INFO", Opening::Information),
    (b"Formula", Opening::Excluded),
    (b"Glycan", Opening::Composition),
    (b"Position", Opening::Excluded),
    (b"Limit", Opening::Excluded),
];

/// The longest key word with its colon.
const LONGEST_KEY: usize = 9;

/// "CoMKP, CoMUP or their long names" (section 11.2 of 001).
const EXCLUDED_NAMES: [&[u8]; 4] = [
    b"CoMKP",
    b"CoMUP",
    b"ColocaliseModificationsOfKnownPosition",
    b"ColocaliseModificationsOfUnknownPosition",
];

/// How the rest of a line begins as a part, and the length of the key or
/// prefix with its colon.
fn opening(rest: &[u8]) -> (Opening, usize) {
    if starts_with_sign(rest) {
        return (Opening::Mass(Key::None), 0);
    }
    let head = &rest[..rest.len().min(LONGEST_KEY)];
    let Some(colon) = head.iter().position(|&byte| byte == b':') else {
        return (Opening::Name(Key::None), 0);
    };
    let word = &head[..colon];
    let found = KEY_WORDS
        .iter()
        .find(|(key, _)| key.eq_ignore_ascii_case(word));
    let length = colon + 1;
    match found {
        None => (Opening::Name(Key::None), 0),
        // A delta mass "may follow `U:` `M:` `R:` `X:` `G:` `C:`".
        Some(&(_, Opening::Name(prefix))) if starts_with_sign(&rest[length..]) => {
            (Opening::Mass(prefix), length)
        }
        Some(&(_, opening)) => (opening, length),
    }
}

fn starts_with_sign(rest: &[u8]) -> bool {
    matches!(rest, [b'+' | b'-', ..])
}

/// Refusal 8: a "label begins XL or is BRANCH; any case".
fn is_excluded_label(name: &[u8]) -> bool {
    let begins_xl = name.len() >= 2 && name[..2].eq_ignore_ascii_case(b"XL");
    begins_xl || name.eq_ignore_ascii_case(b"BRANCH")
}

/// What a run of brackets at the front turned out to be.
enum Front {
    UnknownRun,
    NTerminus,
}

/// What may stand in a bracket besides parts.
#[derive(Clone, Copy)]
struct Inside {
    closing: u8,
    references: bool,
    labels: bool,
}

impl Inside {
    const SQUARE: Self = Self {
        closing: b']',
        references: true,
        labels: true,
    };
    /// "A reference may not stand in an unknown run, in `{}` or on a range."
    const SQUARE_WITHOUT_REFERENCE: Self = Self {
        references: false,
        ..Self::SQUARE
    };
    /// "`{}` holds no label."
    const CURLY: Self = Self {
        closing: b'}',
        references: false,
        labels: false,
    };
    /// Of declarations: "Their brackets carry no label".
    const DECLARED: Self = Self {
        references: false,
        labels: false,
        ..Self::SQUARE
    };
}

struct Scanner<'a> {
    line: &'a [u8],
    at: usize,
    read: Line<'a>,
    /// The first byte of each bracket.
    bracket_places: Vec<usize>,
    /// For each composition its part, and the first byte of it.
    compositions: Vec<(usize, usize)>,
    /// The closing bytes of the pairs that are open in a text.
    open_pairs: Vec<u8>,
    faults: Faults,
}

impl<'a> Scanner<'a> {
    fn new(line: &'a [u8]) -> Self {
        Self {
            line,
            at: 0,
            read: Line {
                residues: Vec::with_capacity(line.len().min(Line::MOST_RESIDUES)),
                ..Line::default()
            },
            bracket_places: Vec::new(),
            compositions: Vec::new(),
            open_pairs: Vec::new(),
            faults: Faults::none(),
        }
    }

    fn peek(&self) -> Option<u8> {
        self.line.get(self.at).copied()
    }

    fn sees(&self, byte: u8) -> bool {
        self.peek() == Some(byte)
    }

    fn take(&mut self, byte: u8) -> bool {
        let found = self.sees(byte);
        // No `self.at += usize::from(found)`: rustc 1.95.0 can lose it.
        if found {
            self.at += 1;
        }
        found
    }

    fn expect(&mut self, byte: u8) -> Result<(), Refusal> {
        if self.take(byte) {
            Ok(())
        } else {
            Err(self.not_of_the_order())
        }
    }

    /// Refusal 4 here: the "first byte with which no line of any length begins
    /// so; else the line's length".
    fn not_of_the_order(&self) -> Refusal {
        Refusal::new(4, self.at)
    }

    /// Takes one or more bytes of a class.
    fn take_some(&mut self, class: impl Fn(&u8) -> bool) -> Result<&'a [u8], Refusal> {
        let rest = &self.line[self.at..];
        let length = rest.iter().take_while(|byte| class(byte)).count();
        if length == 0 {
            return Err(self.not_of_the_order());
        }
        self.at += length;
        Ok(&rest[..length])
    }

    /// Declarations "at the front"; "runs of unknown-position brackets [..];
    /// labile `{..}`; N-terminal brackets and `-`; the sequence; `-` and
    /// C-terminal brackets."
    fn line(&mut self) -> Result<(), Refusal> {
        self.declarations()?;
        self.front()?;
        self.sequence()?;
        self.c_terminus()?;
        if self.at == self.line.len() {
            Ok(())
        } else {
            Err(self.not_of_the_order())
        }
    }

    /// "`<[mod]@K,N-term>` at the front, up to eight declarations"; "a ninth
    /// declaration [..] is 6, there".
    fn declarations(&mut self) -> Result<(), Refusal> {
        let mut count = 0;
        while self.sees(b'<') {
            if count == Line::MOST_DECLARATIONS {
                self.faults.note(6, self.at);
            }
            count += 1;
            self.at += 1;
            if !self.sees(b'[') {
                return Err(self.not_of_the_order());
            }
            self.bracket(Kind::Declared, 0, 0, Inside::DECLARED)?;
            self.expect(b'@')?;
            self.places()?;
            self.expect(b'>')?;
        }
        Ok(())
    }

    /// The places of the declaration whose bracket was read last: "a
    /// seventeenth place is 6, there".
    fn places(&mut self) -> Result<(), Refusal> {
        let mut count = 0;
        loop {
            if count == Bracket::MOST_PLACES {
                self.faults.note(6, self.at);
            }
            let site = self.site()?;
            self.read.places.push(site);
            count += 1;
            if !self.take(b',') {
                break;
            }
        }
        if let Some(bracket) = self.read.brackets.last_mut() {
            bracket.place_count = count;
        }
        Ok(())
    }

    /// "a letter, `N-term` or `C-term`", in either case.
    fn site(&mut self) -> Result<Site, Refusal> {
        let letter = match self.peek() {
            Some(byte) if byte.is_ascii_alphabetic() => byte.to_ascii_uppercase(),
            _ => return Err(self.not_of_the_order()),
        };
        self.at += 1;
        let terminus = match letter {
            b'N' => Site::NTerminus,
            b'C' => Site::CTerminus,
            _ => return Ok(Site::Letter(letter)),
        };
        if !self.take(b'-') {
            return Ok(Site::Letter(letter));
        }
        for byte in *b"term" {
            match self.peek() {
                Some(given) if given.eq_ignore_ascii_case(&byte) => self.at += 1,
                _ => return Err(self.not_of_the_order()),
            }
        }
        Ok(terminus)
    }

    fn front(&mut self) -> Result<(), Refusal> {
        while self.sees(b'[') {
            if let Front::NTerminus = self.front_brackets()? {
                return Ok(());
            }
        }
        while self.sees(b'{') {
            self.bracket(Kind::Labile, 0, 0, Inside::CURLY)?;
        }
        if self.sees(b'[') {
            self.brackets(Kind::NTerminal, 0, 0, Inside::SQUARE)?;
            self.expect(b'-')?;
        }
        Ok(())
    }

    /// Brackets at the front may be of an unknown run or of the N-terminus
    /// until `^`, `?`, `-` or a reference decides.
    fn front_brackets(&mut self) -> Result<Front, Refusal> {
        let first = self.read.brackets.len();
        let mut may_be_run = true;
        let mut may_be_terminus = true;
        loop {
            let inside = if may_be_terminus {
                Inside::SQUARE
            } else {
                Inside::SQUARE_WITHOUT_REFERENCE
            };
            self.bracket(Kind::NTerminal, 0, 0, inside)?;
            may_be_run &= !self.last_bracket_is_reference();
            if may_be_run && self.take(b'^') {
                may_be_terminus = false;
                self.count()?;
            }
            match self.peek() {
                Some(b'[') => {}
                Some(b'?') if may_be_run => {
                    self.at += 1;
                    self.settle_unknown_run(first);
                    return Ok(Front::UnknownRun);
                }
                Some(b'-') if may_be_terminus => {
                    self.at += 1;
                    return Ok(Front::NTerminus);
                }
                _ => return Err(self.not_of_the_order()),
            }
        }
    }

    fn last_bracket_is_reference(&self) -> bool {
        self.read
            .brackets
            .last()
            .is_some_and(|bracket| self.read.is_reference(bracket))
    }

    fn settle_unknown_run(&mut self, first: usize) {
        for index in first..self.read.brackets.len() {
            self.read.brackets[index].kind = Kind::Unknown;
            self.check_information(10, index);
        }
    }

    /// The count behind `^`: "count 1 to 99".
    fn count(&mut self) -> Result<(), Refusal> {
        let place = self.at;
        let digits = self.take_some(u8::is_ascii_digit)?;
        let count = decimal_value(digits, Bracket::MOST_COUNT + 1);
        if !(Bracket::LEAST_COUNT..=Bracket::MOST_COUNT).contains(&count) {
            self.faults.note(7, place);
        }
        if let Some(bracket) = self.read.brackets.last_mut() {
            bracket.count = count as u8;
            let counted = *bracket;
            // Refusal 11: "count (`^1` too) on a labelled bracket".
            if self.read.label_of(&counted).is_some() {
                self.note_at_bracket(11, self.read.brackets.len() - 1);
            }
        }
        Ok(())
    }

    /// "The sequence is one or more of: a residue with its brackets; [..] (a
    /// range); `(?` residues with their brackets `)`."
    fn sequence(&mut self) -> Result<(), Refusal> {
        loop {
            if self.sees(b'(') {
                self.group()?;
            } else {
                self.residue(Section::Plain)?;
            }
            if matches!(self.peek(), None | Some(b'-')) {
                return Ok(());
            }
        }
    }

    fn residue(&mut self, section: Section) -> Result<(), Refusal> {
        let letter = match self.peek() {
            Some(byte) if byte.is_ascii_alphabetic() => byte.to_ascii_uppercase(),
            _ => return Err(self.not_of_the_order()),
        };
        if self.read.residues.len() == Line::MOST_RESIDUES {
            self.faults.note(6, self.at);
        }
        self.at += 1;
        self.read.residues.push(Residue { letter, section });
        if self.sees(b'[') {
            let position = self.read.residues.len();
            self.brackets(Kind::Residue, position, position, Inside::SQUARE)?;
        }
        Ok(())
    }

    /// A range or a `(?..)`. "Ranges don't nest."
    fn group(&mut self) -> Result<(), Refusal> {
        self.expect(b'(')?;
        let ambiguous = self.take(b'?');
        let (first, further) = if ambiguous {
            (Section::AmbiguousFirst, Section::AmbiguousFurther)
        } else {
            (Section::RangeFirst, Section::RangeFurther)
        };
        let first_position = self.read.residues.len() + 1;
        self.residue(first)?;
        while !self.take(b')') {
            self.residue(further)?;
        }
        if ambiguous {
            return Ok(());
        }
        let last_position = self.read.residues.len();
        let inside = Inside::SQUARE_WITHOUT_REFERENCE;
        self.brackets(Kind::Range, first_position, last_position, inside)
    }

    fn c_terminus(&mut self) -> Result<(), Refusal> {
        if !self.take(b'-') {
            return Ok(());
        }
        let position = self.read.c_terminus();
        self.brackets(Kind::CTerminal, position, position, Inside::SQUARE)
    }

    /// One or more square brackets.
    fn brackets(
        &mut self,
        kind: Kind,
        first: usize,
        last: usize,
        inside: Inside,
    ) -> Result<(), Refusal> {
        if !self.sees(b'[') {
            return Err(self.not_of_the_order());
        }
        while self.sees(b'[') {
            self.bracket(kind, first, last, inside)?;
        }
        Ok(())
    }

    /// "A bracket is parts split by `|`, none empty, or a lone reference
    /// `#label`." Its opening byte is here.
    fn bracket(
        &mut self,
        kind: Kind,
        first: usize,
        last: usize,
        inside: Inside,
    ) -> Result<(), Refusal> {
        let index = self.read.brackets.len();
        if index == Line::MOST_BRACKETS {
            self.faults.note(6, self.at);
        }
        self.bracket_places.push(self.at);
        self.at += 1;
        let first_part = self.read.parts.len();
        if inside.references && self.sees(b'#') {
            self.reference()?;
        } else {
            self.parts(inside)?;
        }
        self.expect(inside.closing)?;
        self.read.brackets.push(Bracket {
            kind,
            first,
            last,
            count: 1,
            first_part,
            part_count: self.read.parts.len() - first_part,
            first_place: self.read.places.len(),
            place_count: 0,
        });
        match kind {
            Kind::Labile => self.check_information(10, index),
            Kind::Declared => self.check_information(21, index),
            _ => {}
        }
        Ok(())
    }

    fn note_at_bracket(&mut self, number: u8, index: usize) {
        self.faults.note(number, self.bracket_places[index]);
    }

    /// Refusal 10: "only INFO in an unknown or labile bracket"; 21: "only INFO
    /// in a declaration".
    fn check_information(&mut self, number: u8, index: usize) {
        if self.read.is_only_information(&self.read.brackets[index]) {
            self.note_at_bracket(number, index);
        }
    }

    fn reference(&mut self) -> Result<(), Refusal> {
        let label = self.label(self.at)?;
        self.read.parts.push(Part {
            key: Key::None,
            content: Content::Reference,
            label: Some(label),
        });
        Ok(())
    }

    fn parts(&mut self, inside: Inside) -> Result<(), Refusal> {
        let mut count = 0;
        loop {
            if count == Bracket::MOST_PARTS {
                self.faults.note(6, self.at);
            }
            self.part(inside)?;
            count += 1;
            if !self.take(b'|') {
                return Ok(());
            }
        }
    }

    fn part(&mut self, inside: Inside) -> Result<(), Refusal> {
        let place = self.at;
        let (opening, key_length) = opening(&self.line[place..]);
        self.at += key_length;
        let (key, content) = match opening {
            Opening::Mass(key) => (key, Content::Mass(self.mass()?)),
            Opening::Number(key) => (key, Content::Text(self.take_some(u8::is_ascii_digit)?)),
            Opening::Accession(key) => (
                key,
                Content::Text(self.take_some(u8::is_ascii_alphanumeric)?),
            ),
            Opening::Information => (Key::Info, Content::Text(self.text(false)?)),
            Opening::Composition => {
                self.compositions.push((self.read.parts.len(), place));
                (Key::Glycan, Content::Text(self.text(true)?))
            }
            Opening::Excluded => {
                self.faults.note(8, place);
                (Key::None, Content::Text(self.text(false)?))
            }
            Opening::Name(key) => (key, Content::Text(self.name(key, place)?)),
        };
        if let Content::Text(text) = &content {
            if text.len() > Part::LONGEST_TEXT {
                self.faults.note(6, place);
            }
        }
        let label = if inside.labels && self.sees(b'#') {
            Some(self.label(place)?)
        } else {
            None
        };
        self.read.parts.push(Part {
            key,
            content,
            label,
        });
        Ok(())
    }

    /// "a name: a text, perhaps after one of the six one-letter prefixes"
    fn name(&mut self, key: Key, place: usize) -> Result<&'a [u8], Refusal> {
        let text = self.text(true)?;
        match key {
            Key::None => {
                let excluded = |name: &&[u8]| name.eq_ignore_ascii_case(text);
                if EXCLUDED_NAMES.iter().any(excluded) {
                    self.faults.note(8, place);
                }
            }
            // Refusal 9: "prefix U or M and a name all digits".
            Key::U | Key::M if text.iter().all(u8::is_ascii_digit) => {
                self.faults.note(9, place);
            }
            _ => {}
        }
        Ok(text)
    }

    /// "a text is plain bytes and closed pairs that hold texts"; "A part's
    /// whole text [is] never empty". It ends before `|`, before a closing byte
    /// that closes none of its pairs and, where a label may follow, before `#`.
    fn text(&mut self, ends_at_label: bool) -> Result<&'a [u8], Refusal> {
        let first = self.at;
        while let Some(byte) = self.peek() {
            match byte {
                b'[' | b'{' => self.pair()?,
                b']' | b'}' | b'|' => break,
                b'#' if ends_at_label => break,
                _ => self.at += 1,
            }
        }
        if self.at == first {
            return Err(self.not_of_the_order());
        }
        Ok(&self.line[first..self.at])
    }

    /// A pair with all that it holds; its opening byte is here. "`|` and `#`
    /// inside a pair are plain." Refusal 5: "pairs too deep [..] the opening
    /// byte".
    fn pair(&mut self) -> Result<(), Refusal> {
        self.open_pairs.clear();
        while let Some(byte) = self.peek() {
            match byte {
                b'[' | b'{' => {
                    self.open_pairs.push(if byte == b'[' { b']' } else { b'}' });
                    if self.open_pairs.len() > Part::DEEPEST_PAIR {
                        self.faults.note(5, self.at);
                    }
                }
                b']' | b'}' => {
                    let closes = self.open_pairs.pop() == Some(byte);
                    if !closes {
                        break;
                    }
                }
                _ => {}
            }
            self.at += 1;
            if self.open_pairs.is_empty() {
                return Ok(());
            }
        }
        Err(self.not_of_the_order())
    }

    /// "A label is letters and digits, then perhaps a score `(number)` with an
    /// optional sign." Its `#` is here; refusal 8 has the place handed in.
    fn label(&mut self, place: usize) -> Result<Label<'a>, Refusal> {
        self.expect(b'#')?;
        let first = self.at;
        let name = self.take_some(u8::is_ascii_alphanumeric)?;
        if name.len() > Label::LONGEST {
            self.faults.note(6, first);
        }
        if is_excluded_label(name) {
            self.faults.note(8, place);
        }
        let score = if self.take(b'(') {
            let score = self.number()?;
            self.expect(b')')?;
            Some(score)
        } else {
            None
        };
        Ok(Label { name, score })
    }

    /// "sign, digits, perhaps `.` and digits: a delta mass"
    fn mass(&mut self) -> Result<Number, Refusal> {
        if starts_with_sign(&self.line[self.at..]) {
            self.number()
        } else {
            Err(self.not_of_the_order())
        }
    }

    /// A mass or a score, which need not have a sign.
    fn number(&mut self) -> Result<Number, Refusal> {
        let place = self.at;
        let negative = self.sees(b'-');
        if negative || self.sees(b'+') {
            self.at += 1;
        }
        let whole = decimal_value(self.take_some(u8::is_ascii_digit)?, Number::BEYOND);
        let fraction = if self.take(b'.') {
            self.take_some(u8::is_ascii_digit)?
        } else {
            &[]
        };
        if whole >= Number::BEYOND || fraction.len() > Number::MOST_DECIMALS {
            self.faults.note(7, place);
        }
        let size = whole * Number::WHOLE + fraction_in_millionths(fraction);
        Ok(Number {
            millionths: if negative {
                -(size as i64)
            } else {
                size as i64
            },
            decimals: fraction.len().min(Number::MOST_DECIMALS) as u8,
        })
    }

    /// Refusal 11, but for counts: "second label in a bracket, label defined
    /// again, reference without definition, [..] label defined in an unknown
    /// run and never referred to". At most 64 brackets have come this far.
    fn check_labels(&mut self) {
        let labels = self.labels();
        for (earlier, one) in labels.iter().enumerate() {
            let before = &labels[..earlier];
            let shares_bracket = |other: &Labelled| other.bracket == one.bracket;
            let has_definition = |other: &Labelled| other.name == one.name && !other.reference;
            let refers = |other: &Labelled| other.name == one.name && other.reference;
            let in_unknown_run = self.read.brackets[one.bracket].kind == Kind::Unknown;
            let fault = before.last().is_some_and(shares_bracket)
                || if one.reference {
                    !labels.iter().any(has_definition)
                } else {
                    before.iter().any(has_definition)
                        || (in_unknown_run && !labels.iter().any(refers))
                };
            if fault {
                self.note_at_bracket(11, one.bracket);
            }
        }
    }

    /// All labels, in order of appearance.
    fn labels(&self) -> Vec<Labelled<'a>> {
        let mut labels = Vec::new();
        for (index, bracket) in self.read.brackets.iter().enumerate() {
            for part in self.read.parts_of(bracket) {
                if let Some(label) = part.label {
                    labels.push(Labelled {
                        bracket: index,
                        name: label.name,
                        reference: part.content == Content::Reference,
                    });
                }
            }
        }
        labels
    }

    /// Refusal 12: "more than 8 floating copies [..] the bracket that passes
    /// 8".
    fn check_floaters(&self) -> Result<(), Refusal> {
        let mut copies = 0;
        for (bracket, &place) in self.read.brackets.iter().zip(&self.bracket_places) {
            copies += self.read.floating_copies(bracket);
            if copies > Line::MOST_FLOATERS {
                return Err(Refusal::new(12, place));
            }
        }
        Ok(())
    }

    /// "Refusals: 19 no cutting, 20 more than one, as given or so shortened
    /// [..], both after 12, at the part." The compositions of an accepted line
    /// are kept with their masses.
    fn cut_compositions(&mut self) -> Result<(), Refusal> {
        let mut second = None;
        for &(index, place) in &self.compositions {
            let Content::Text(text) = self.read.parts[index].content else {
                unreachable!("the part of a composition is read as a text")
            };
            match cut(text) {
                Cutting::None => return Err(Refusal::new(19, place)),
                Cutting::One(pieces) => {
                    self.read.parts[index].content = Content::Composition(Box::new(Composition {
                        text: spelled(&pieces),
                        mass: mass(&pieces),
                    }));
                }
                Cutting::Many => second = second.or(Some(Refusal::new(20, place))),
            }
        }
        second.map_or(Ok(()), Err)
    }
}

/// One label where it stands.
struct Labelled<'a> {
    bracket: usize,
    name: &'a [u8],
    reference: bool,
}

/// The value of digits, or `most` where it is that or more.
fn decimal_value(digits: &[u8], most: u64) -> u64 {
    let mut value = 0;
    for digit in digits {
        value = most.min(value * 10 + u64::from(digit - b'0'));
    }
    value
}

/// The first six decimals as millionths.
fn fraction_in_millionths(fraction: &[u8]) -> u64 {
    let mut worth = Number::WHOLE;
    let mut value = 0;
    for digit in fraction {
        worth /= 10;
        value += worth * u64::from(digit - b'0');
    }
    value
}
