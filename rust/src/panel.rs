//! The rules of panels.

use crate::format::{answer, panel};
use crate::{archive, lent, Refused};
use std::fmt::{self, Display, Formatter};

/// A rule that every control of a panel has to keep. In this order they are tried.
#[derive(Clone, Copy, Debug, PartialEq, Eq, PartialOrd, Ord, Hash)]
pub enum PanelRule {
    /// Every type code has a type name.
    TypeName = panel::TYPE_NAME as isize,
    /// A name is UTF-16 text: neither numbered nor loose.
    NameMark = panel::NAME_MARK as isize,
    /// No name is equal, byte for byte, to that of an earlier control.
    NewName = panel::NEW_NAME as isize,
    /// A text box or combo box has exactly one ControlSource, and that is text of at least one byte.
    Source = panel::SOURCE as isize,
    /// Left, Top, Width and Height are Short, Width and Height not negative.
    Place = panel::PLACE as isize,
    /// The level is at most 7.
    Level = panel::LEVEL as isize,
}

impl PanelRule {
    pub(crate) fn of(number: u32) -> Option<PanelRule> {
        use PanelRule::*;
        [TypeName, NameMark, NewName, Source, Place, Level].into_iter().find(|rule| rule.number() == number)
    }

    /// Its number in the customer's list, 1 to 6.
    pub fn number(self) -> u32 {
        self as u32
    }
}

impl Display for PanelRule {
    fn fmt(&self, f: &mut Formatter<'_>) -> fmt::Result {
        f.write_str(match self {
            PanelRule::TypeName => "every type code has a type name",
            PanelRule::NameMark => "names are UTF-16 text",
            PanelRule::NewName => "no name is that of an earlier control",
            PanelRule::Source => "a text box or combo box has exactly one ControlSource, and that is text of at least one byte",
            PanelRule::Place => "Left, Top, Width and Height are Short, and Width and Height aren't negative",
            PanelRule::Level => "the level is at most 7",
        })
    }
}

/// What the rules of panels say of a Blob.
#[derive(Clone, Copy, Debug, PartialEq, Eq, Hash)]
pub enum Panel {
    /// All controls keep all rules.
    Yes,
    /// This control is the first that breaks a rule, and this is the first rule that it breaks.
    No {
        /// Its number in [`Blob::controls`](crate::Blob::controls).
        control: usize,
        /// The rule.
        rule: PanelRule,
    },
}

impl Panel {
    /// Reads a Blob as [`Blob::read`](crate::Blob::read) does, and judges it. On `Yes` the code table has the code of every box's ControlSource, so that no panel keeps
    /// its template's binding because of a code that the table lacks. The rule of new names goes by a hash of each name: only names that share one are
    /// compared with those before them.
    ///
    /// ```
    /// use oskuramos::{Blob, Panel, PanelRule, ACCESS_2000_CODES};
    ///
    /// let stream = std::fs::read("examples/form-2000.blob")?;
    /// let Panel::No { control, rule } = Panel::check(ACCESS_2000_CODES, &stream)? else { panic!() };
    /// let form = Blob::read(ACCESS_2000_CODES, &stream)?;
    /// assert_eq!((form.controls[control].name.to_string(), rule), ("Control_7".to_string(), PanelRule::NameMark));
    /// assert_eq!(rule.to_string(), "names are UTF-16 text");
    /// # Ok::<(), Box<dyn std::error::Error>>(())
    /// ```
    pub fn check(table: &[u8], stream: &[u8]) -> Result<Panel, Refused> {
        let needed = match lent::read_blob(table, stream, &mut [], &mut []) {
            Ok(counts) | Err(Refused::MoreControls(counts) | Refused::MoreProperties(counts)) => counts,
            Err(refused) => return Err(refused),
        };
        let (mut controls, mut properties) = (vec![Default::default(); needed.controls], vec![Default::default(); needed.properties]);
        lent::check_panel(table, stream, &mut controls, &mut properties)
    }
}

/// What an accepted call answers.
pub(crate) fn of_counts(a: &archive::Answer) -> Result<Panel, Refused> {
    match a.first {
        0 => {
            let rule = PanelRule::of(a.third).ok_or(Refused::OtherArchive(answer::READ))?;
            Ok(Panel::No { control: a.second as usize, rule })
        }
        _ => Ok(Panel::Yes),
    }
}
