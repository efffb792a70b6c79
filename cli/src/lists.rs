//! Lists of items that files hold, and lists as sheets.

use crate::{
    input::Input,
    krl::{is_krl, Krl},
    message::{self, Failure},
    reasons,
};
use fernsponge::{check_list, Item, KeyAt, Pool, Reason, Refusal, Sheet, Side, MOST_ITEMS};

/// A list that was read from a file.
pub struct List<'a> {
    /// Its items.
    pub items: Vec<Item>,
    input: &'a Input,
    form: Form,
}

/// What an item is in its file.
enum Form {
    /// A row.
    Sheet,
    /// An item of one of two lists.
    Krl(Side),
}

impl<'a> List<'a> {
    /// The list of a sheet. Its keys are added to the pool.
    pub fn of_sheet(input: &'a Input, pool: &mut Pool) -> Result<Self, Failure> {
        let sheet = Sheet::read(&input.bytes).map_err(|error| message::of_sheet(input, &error))?;
        let list = Self {
            items: sheet.items,
            input,
            form: Form::Sheet,
        };
        list.over(sheet.pool.bytes(), pool)
    }

    /// Both lists of a KRL file, and their pool.
    pub fn of_krl(input: &'a Input) -> Result<(Vec<u8>, Self, Self), Failure> {
        let Krl { pool, ours, theirs } = Krl::read(input)?;
        let list = |items, side| Self {
            items,
            input,
            form: Form::Krl(side),
        };
        Ok((pool, list(ours, Side::Ours), list(theirs, Side::Theirs)))
    }

    /// The list of a file that has one: of a sheet, or of a KRL file whose second list is empty. Its keys are added to the pool.
    pub fn of_one(input: &'a Input, pool: &mut Pool) -> Result<Self, Failure> {
        if !is_krl(&input.bytes) {
            return Self::of_sheet(input, pool);
        }
        let (own, list, second) = Self::of_krl(input)?;
        if !second.items.is_empty() {
            let why =
                "it has two lists, and of two files each has one: name it alone, or unpack it";
            return Err(Failure::usage("compare", &format!("{}: {why}", input.name)));
        }
        check_list(&own, &list.items, Side::Ours).map_err(|refusal| list.refused(&refusal))?;
        list.over(&own, pool)
    }

    /// The same list over another pool, to which its keys are added.
    fn over(mut self, from: &[u8], to: &mut Pool) -> Result<Self, Failure> {
        let name = &self.input.name;
        let full = match to.is_empty() {
            true => reasons::KEYS_THAT_OVERLAP,
            false => reasons::KEYS_OF_TWO_FILES,
        };
        for item in &mut self.items {
            *item = moved(*item, from, to)
                .map_err(|refusal| Failure::numbered(name, full, refusal.number))?;
        }
        Ok(self)
    }

    /// The failure where this list is refused.
    pub fn refused(&self, refusal: &Refusal) -> Failure {
        let (name, count) = (&self.input.name, self.items.len());
        if refusal.reason() == Reason::Malformed && count > MOST_ITEMS {
            let which = match self.form {
                Form::Sheet => String::new(),
                Form::Krl(side) => format!(": {}", reasons::side(side)),
            };
            return Failure::numbered(
                format!("{name}{which}"),
                format!("{count} items, and a list has at most 2,048"),
                refusal.number,
            );
        }
        let place = match refusal.reason() {
            Reason::NoRoom => name.to_string(),
            _ => self.place(refusal.index),
        };
        Failure::of_call(place, reasons::why(refusal.number), refusal)
    }

    /// The file, and which item of it.
    fn place(&self, index: u64) -> String {
        let (name, number) = (&self.input.name, u128::from(index) + 1);
        match self.form {
            Form::Sheet => format!("{name}: row {number}"),
            Form::Krl(side) => format!("{name}: item {number} of {}", reasons::side(side)),
        }
    }
}

/// The same item over another pool. Its keys stand in its own, and what it does not have is 0; so an empty key may be 0 as well.
fn moved(item: Item, from: &[u8], to: &mut Pool) -> Result<Item, Refusal> {
    let [code, wrapper, start, start_length, end, end_length] = item.words();
    let mut key = |offset, length| match length {
        0 => Ok(KeyAt::default()),
        _ => to.add_once(KeyAt { offset, length }.bytes(from)),
    };
    let (start, end) = (key(start, start_length)?, key(end, end_length)?);
    Ok(Item::from_words([
        code,
        wrapper,
        start.offset,
        start.length,
        end.offset,
        end.length,
    ]))
}

/// A list as a sheet, beside the number of its rows; a list that is refused is named by the failure that is handed over.
pub fn sheet(
    pool: &[u8],
    items: &[Item],
    refused: impl Fn(&Refusal) -> Failure,
) -> Result<(usize, String), Failure> {
    let text = Sheet::write(pool, items).map_err(|refusal| refused(&refusal))?;
    Ok((items.len(), text))
}
