//! A Blob with room of its own, its rows taken apart.

use crate::format::{answer, name, LABEL_LONGEST, NO_PARENT, NO_TYPE, UNMAPPED};
use crate::lent::{control_name, count, label_text, pair, read_2000, read_blob, read_later, ControlRow, PropertyRow};
use crate::text::ascii;
use crate::{archive, control_type_name, value_name, Counts, Loose, Name, Refused, Text, TypeInfo, Value};
use std::fmt::{self, Display, Formatter};

/// Which of the two layouts a Blob has. Access 2000 is told by its first byte, which is the code table's.
#[derive(Clone, Copy, Debug, PartialEq, Eq, Hash)]
pub enum Layout {
    /// Properties are codes, which the code table ties to ids.
    Access2000,
    /// Properties have ids and types of their own; the code table isn't asked.
    Later,
}

/// A Blob that was read.
///
/// ```
/// use oskuramos::{Blob, ACCESS_2000_CODES};
///
/// let stream = std::fs::read("examples/form-2000.blob")?;
/// let form = Blob::read(ACCESS_2000_CODES, &stream)?;
/// assert_eq!(form.property("RecordSource").unwrap().value.text().unwrap(), "Relays");
/// let bound = form.controls.iter().filter_map(|c| Some(format!("{} {}", c.name, c.property("ControlSource")?.value)));
/// assert_eq!(Vec::from_iter(bound), ["txtVolt Voltage", "txtSign Sign", "cboFeeder FeederId"]);
/// # Ok::<(), Box<dyn std::error::Error>>(())
/// ```
#[derive(Clone, Debug, PartialEq)]
#[non_exhaustive]
pub struct Blob<'a> {
    /// The layout that it was read in.
    pub layout: Layout,
    /// The form's or report's own properties.
    pub own: Vec<Property<'a>>,
    /// Its controls in output order.
    pub controls: Vec<Control<'a>>,
}

impl<'a> Blob<'a> {
    /// Asks how many rows there are, makes room and reads them. They take no more memory than [`Room`](crate::Room) for the stream's length, and
    /// mostly far less: `form-2000.blob` has 52 rows, and room for its length is 612.
    ///
    /// The table is given by its bytes, [`ACCESS_2000_CODES`](crate::ACCESS_2000_CODES) or those of a [`CodeTable`](crate::CodeTable).
    ///
    /// The later layout has no mark of its own: bytes that are no Blob at all are mostly read as one without properties or controls.
    pub fn read(table: &[u8], stream: &'a [u8]) -> Result<Blob<'a>, Refused> {
        let layout = if stream.first() == table.first() { Layout::Access2000 } else { Layout::Later };
        Blob::by(layout, stream, |controls, properties| read_blob(table, stream, controls, properties))
    }

    /// The same of a Blob that is known to be of Access 2000, so that a wrong first byte is noticed: where it isn't the code table's, or there is none,
    /// the Blob is refused with [`Refused::OtherLayout`].
    ///
    /// ```
    /// use oskuramos::{Blob, Refused, ACCESS_2000_CODES};
    ///
    /// let later = std::fs::read("examples/later-tree.blob")?;
    /// assert_eq!(Blob::read_2000(ACCESS_2000_CODES, &later), Err(Refused::OtherLayout));
    /// assert_eq!(Blob::read_later(ACCESS_2000_CODES[0].into(), &later)?, Blob::read(ACCESS_2000_CODES, &later)?);
    /// # Ok::<(), Box<dyn std::error::Error>>(())
    /// ```
    pub fn read_2000(table: &[u8], stream: &'a [u8]) -> Result<Blob<'a>, Refused> {
        Blob::by(Layout::Access2000, stream, |controls, properties| read_2000(table, stream, controls, properties))
    }

    /// The same of a Blob that is known to be of the later layout. It needs no code table: it is told the layout byte of Access 2000 as a number, that of
    /// a table being its first byte, and refuses what begins with it with [`Refused::OtherLayout`]. No Blob begins with a number above 255.
    pub fn read_later(layout: u32, stream: &'a [u8]) -> Result<Blob<'a>, Refused> {
        Blob::by(Layout::Later, stream, |controls, properties| read_later(layout, stream, controls, properties))
    }

    fn by(
        layout: Layout,
        stream: &'a [u8],
        read: impl Fn(&mut [ControlRow], &mut [PropertyRow]) -> Result<Counts, Refused>,
    ) -> Result<Blob<'a>, Refused> {
        let needed = match read(&mut [], &mut []) {
            Ok(counts) | Err(Refused::MoreControls(counts) | Refused::MoreProperties(counts)) => counts,
            Err(refused) => return Err(refused),
        };
        let (mut controls, mut properties) = (vec![Default::default(); needed.controls], vec![Default::default(); needed.properties]);
        let counts = read(&mut controls, &mut properties)?;
        let properties = properties.iter().map(|row| Property::of(row, layout, stream)).collect::<Option<Vec<_>>>();
        properties.and_then(|all| Blob::of(layout, counts.own, &controls, all, stream)).ok_or(Refused::OtherArchive(answer::READ))
    }

    fn of(layout: Layout, own: usize, controls: &[ControlRow], all: Vec<Property<'a>>, stream: &'a [u8]) -> Option<Blob<'a>> {
        let controls = controls.iter().enumerate().map(|(n, row)| Control::of(n, row, &all, stream)).collect::<Option<_>>()?;
        Some(Blob { layout, own: all.get(..own)?.to_vec(), controls })
    }

    /// The first of its own properties that has the name.
    pub fn property(&self, name: &str) -> Option<&Property<'a>> {
        named(&self.own, name)
    }

    /// The first control that has the name.
    pub fn control(&self, name: &str) -> Option<&Control<'a>> {
        self.controls.iter().find(|control| control.name == *name)
    }

    /// The controls that stand right in control `n`, each with its number in [`Blob::controls`]: the controls of a section, the buttons of an option
    /// group, the pages of a tab control. None where there is no control `n`.
    ///
    /// ```
    /// use oskuramos::{Blob, ACCESS_2000_CODES};
    ///
    /// let stream = std::fs::read("examples/panel-2000.blob")?;
    /// let form = Blob::read(ACCESS_2000_CODES, &stream)?;
    /// let group = form.controls.iter().position(|c| c.name == "grpFeeder").unwrap();
    /// let inside = form.children_of(group).map(|(_, control)| control.name.to_string());
    /// assert_eq!(Vec::from_iter(inside), ["optNorth", "optSouth"]);
    /// # Ok::<(), Box<dyn std::error::Error>>(())
    /// ```
    pub fn children_of(&self, n: usize) -> impl Iterator<Item = (usize, &Control<'a>)> {
        let level = self.controls.get(n).map_or(0, |control| control.level);
        let below = self.controls.iter().enumerate().skip(n.saturating_add(1)).take_while(move |(_, control)| control.level > level);
        below.filter(move |(_, control)| control.parent == Some(n))
    }

    /// The controls that control `n` stands in, the innermost first, each with its number. None where there is no control `n`.
    ///
    /// ```
    /// use oskuramos::{Blob, ACCESS_2000_CODES};
    ///
    /// let stream = std::fs::read("examples/panel-2000.blob")?;
    /// let form = Blob::read(ACCESS_2000_CODES, &stream)?;
    /// let volt = form.controls.iter().position(|c| c.name == "txtVoltB").unwrap();
    /// let around = form.ancestors_of(volt).map(|(_, control)| control.name.to_string());
    /// assert_eq!(Vec::from_iter(around), ["pagBusB", "tabBus", "Detail"]);
    /// # Ok::<(), Box<dyn std::error::Error>>(())
    /// ```
    pub fn ancestors_of(&self, n: usize) -> impl Iterator<Item = (usize, &Control<'a>)> {
        let above = |n: usize| self.controls.get(n)?.parent;
        std::iter::successors(above(n), move |&n| above(n)).map(|n| (n, &self.controls[n]))
    }

    /// Sets the type of each control to that of the first entry of TypeInfo with the same name, and returns the numbers of the controls without one,
    /// which keep theirs. In a later Blob that was scanned for names every type is 0 before.
    ///
    /// Names match when both are wholly ASCII and equal but for the case of A to Z; a numbered control has its label. Entries whose name was cut
    /// are skipped. The time grows with the product of controls and entries.
    ///
    /// ```
    /// use oskuramos::{Blob, TypeInfo, ACCESS_2000_CODES};
    ///
    /// let (stream, names) = (std::fs::read("examples/later-tree.blob")?, std::fs::read("examples/form.typeinfo")?);
    /// let mut form = Blob::read(ACCESS_2000_CODES, &stream)?;
    /// let unpaired = form.pair(&TypeInfo::read(&names)?)?;
    /// assert_eq!(form.controls[2].type_code, 0x126D); // 0x6D in the Blob
    /// assert_eq!(form.controls[unpaired[0]].name, "lblVolt");
    /// # Ok::<(), Box<dyn std::error::Error>>(())
    /// ```
    pub fn pair(&mut self, info: &TypeInfo) -> Result<Vec<usize>, Refused> {
        let (mut names, mut info_names) = (Vec::new(), Vec::new());
        let mut controls = self.controls.iter().map(|control| control.name.row(&mut names)).collect::<Result<Vec<_>, _>>()?;
        let infos = info.entries.iter().map(|entry| entry.row(&mut info_names)).collect::<Result<Vec<_>, _>>()?;
        pair(&names, &mut controls, &info_names, &infos)?;
        let mut unpaired = Vec::new();
        for (n, (control, row)) in self.controls.iter_mut().zip(&controls).enumerate() {
            match u16::try_from(row[0]) {
                Ok(type_code) => control.type_code = type_code,
                Err(_) => unpaired.push(n),
            }
        }
        Ok(unpaired)
    }

    /// All properties in the order of their rows: its own, then each control's.
    pub fn properties(&self) -> impl Iterator<Item = &Property<'a>> {
        self.own.iter().chain(self.controls.iter().flat_map(|control| &control.properties))
    }
}

/// A control with its properties.
#[derive(Clone, Debug, PartialEq)]
#[non_exhaustive]
pub struct Control<'a> {
    /// Its type, 0 where a later Blob was scanned for names.
    pub type_code: u16,
    /// Its name.
    pub name: ControlName<'a>,
    /// Its properties in the order of the stream.
    pub properties: Vec<Property<'a>>,
    /// How many controls it stands in: 0 for a section or another top entry, and for every control where a later Blob was scanned for names.
    pub level: usize,
    /// The number of the control that it stands in, `None` at level 0. It is the last one before it that is one level less.
    pub parent: Option<usize>,
}

impl<'a> Control<'a> {
    fn of(n: usize, row: &ControlRow, all: &[Property<'a>], stream: &'a [u8]) -> Option<Control<'a>> {
        let [type_code, mark, start, length, first, count, level, parent] = *row;
        let (level, parent) = (level as usize, (parent != NO_PARENT).then_some(parent as usize));
        if parent.is_some_and(|parent| parent >= n) {
            return None;
        }
        let properties = all.get(first as usize..)?.get(..count as usize)?.to_vec();
        let name = ControlName::of(mark, start, length, stream)?;
        Some(Control { type_code: type_code.try_into().ok()?, name, properties, level, parent })
    }

    /// The name of its type, such as `TextBox`.
    pub fn type_name(&self) -> Option<Name> {
        control_type_name(self.type_code)
    }

    /// The first of its properties that has the name.
    pub fn property(&self, name: &str) -> Option<&Property<'a>> {
        named(&self.properties, name)
    }
}

/// Its type's name, or code in hex, and its name.
impl Display for Control<'_> {
    fn fmt(&self, f: &mut Formatter) -> fmt::Result {
        match self.type_name() {
            Some(type_name) => write!(f, "{type_name} {}", self.name),
            None => write!(f, "{:04X} {}", self.type_code, self.name),
        }
    }
}

/// A control's name.
#[derive(Clone, Copy, Debug, PartialEq, Eq, Hash)]
pub enum ControlName<'a> {
    /// Text.
    Text(Text<'a>),
    /// None of its own: it is called `Control_` and its number in output order.
    Numbered(u32),
    /// Text that isn't UTF-16.
    Loose(Loose<'a>),
}

impl<'a> ControlName<'a> {
    fn of(mark: u32, start: u32, length: u32, stream: &'a [u8]) -> Option<ControlName<'a>> {
        let bytes = control_name(stream, &[], mark, start, length);
        match mark {
            name::UTF16 => Text::new(bytes).map(ControlName::Text),
            name::NUMBERED => Some(ControlName::Numbered(start)),
            name::LOOSE => Some(ControlName::Loose(Loose(bytes))),
            _ => None,
        }
    }
}

impl ControlName<'_> {
    /// A row of this name without a type; its bytes are put at the end of those of other names.
    fn row(&self, names: &mut Vec<u8>) -> Result<ControlRow, Refused> {
        let (mark, start, bytes) = match self {
            ControlName::Text(text) => (name::UTF16, count(names.len())?, text.as_bytes()),
            ControlName::Loose(loose) => (name::LOOSE, count(names.len())?, loose.0),
            ControlName::Numbered(n) => (name::NUMBERED, *n, &[][..]),
        };
        names.extend_from_slice(bytes);
        Ok([NO_TYPE, mark, start, count(bytes.len())?, 0, 0, 0, NO_PARENT])
    }
}

impl Display for ControlName<'_> {
    fn fmt(&self, f: &mut Formatter) -> fmt::Result {
        match self {
            ControlName::Text(text) => text.fmt(f),
            ControlName::Loose(loose) => loose.fmt(f),
            ControlName::Numbered(n) => f.pad(label(*n, &mut [0; LABEL_LONGEST])),
        }
    }
}

/// A loose name is no `str`, whatever its text looks like.
impl PartialEq<str> for ControlName<'_> {
    fn eq(&self, other: &str) -> bool {
        match self {
            ControlName::Text(text) => text == other,
            ControlName::Loose(_) => false,
            ControlName::Numbered(n) => label(*n, &mut [0; LABEL_LONGEST]) == other,
        }
    }
}

impl PartialEq<&str> for ControlName<'_> {
    fn eq(&self, other: &&str) -> bool {
        *self == **other
    }
}

fn label(n: u32, out: &mut [u8; LABEL_LONGEST]) -> &str {
    let length = label_text(n, out).expect("room for the longest label");
    ascii(&out[..length])
}

/// A property.
#[derive(Clone, Copy, Debug, PartialEq)]
#[non_exhaustive]
pub struct Property<'a> {
    /// Which property it is, such as 0x36 for `Left`, or 0x8000 and a raw code.
    pub id: u16,
    /// Its value.
    pub value: Value<'a>,
    /// The value's bytes as stored.
    pub bytes: &'a [u8],
    /// Where they start in the stream.
    pub start: usize,
    layout: Layout,
}

impl<'a> Property<'a> {
    fn of(row: &PropertyRow, layout: Layout, stream: &'a [u8]) -> Option<Property<'a>> {
        let [id, mark, low, high, start, length] = *row;
        let bytes = stream.get(start as usize..)?.get(..length as usize)?;
        let value = Value::of(archive::Value { mark, low, high }, bytes)?;
        Some(Property { id: id.try_into().ok()?, value, bytes, start: start as usize, layout })
    }

    /// Its name, such as `ControlSource`.
    pub fn name(&self) -> Option<Name> {
        value_name(self.value.mark(), self.id)
    }

    /// The raw code, where the code table lacks it: the value is then shown as it is stored, and its meaning isn't known.
    /// In the later layout a property has no code, and every id is its own.
    ///
    /// ```
    /// use oskuramos::{Blob, ACCESS_2000_CODES};
    ///
    /// let stream = std::fs::read("examples/form-2000.blob")?;
    /// let form = Blob::read(ACCESS_2000_CODES, &stream)?;
    /// let lacked = form.properties().filter_map(|p| p.unmapped());
    /// assert_eq!(Vec::from_iter(lacked), [0x2F, 0xD5]);
    /// # Ok::<(), Box<dyn std::error::Error>>(())
    /// ```
    pub fn unmapped(&self) -> Option<u8> {
        let code = self.id.checked_sub(UNMAPPED).filter(|_| self.layout == Layout::Access2000)?;
        u8::try_from(code).ok()
    }
}

/// Its name, or id in hex, and its value.
impl Display for Property<'_> {
    fn fmt(&self, f: &mut Formatter) -> fmt::Result {
        match self.name() {
            Some(name) => write!(f, "{name} = {}", self.value),
            None => write!(f, "{:04X} = {}", self.id, self.value),
        }
    }
}

fn named<'p, 'a>(properties: &'p [Property<'a>], name: &str) -> Option<&'p Property<'a>> {
    properties.iter().find(|p| p.name().is_some_and(|n| n == *name))
}
