//! Rate cards: an amount for each item of a list, the rate of a key, and the totals of an invoice.

use crate::{
    detail,
    item::{Item, KeyAt},
    refusal::{Refusal, Side},
    words,
};
use std::{fmt, str::FromStr};

/// An amount of a card, exact to the ten-thousandth of the currency unit: from -100,000,000 to 100,000,000 units.
///
/// Its text is a decimal number: a sign or none, `+` or `-`, then one digit or more, then nothing or a point and one to four digits, as `7`,
/// `-0.5`, `+1.25` and `007.50`. A point has a digit on both sides, so `.5` and `5.` are no amounts; nor is a text with a space, a comma, an
/// exponent, or digits that are not those of ASCII. A fifth place is an error also where it is 0: nothing is rounded. Writing gives the shortest
/// such text, with no `+` unless it is asked for, and 0 without a sign; reading it gives the same amount.
///
/// ```
/// use fernsponge::{Amount, AmountError};
///
/// let amount: Amount = "12.3450".parse()?;
/// assert_eq!(amount.ten_thousandths(), 123_450);
/// assert_eq!(amount.to_string(), "12.345");
/// assert_eq!("0.12345".parse::<Amount>(), Err(AmountError::TooManyPlaces));
/// assert_eq!("100000000.0001".parse::<Amount>(), Err(AmountError::OutOfRange));
/// assert_eq!("1,5".parse::<Amount>(), Err(AmountError::NoNumber));
/// # Ok::<(), AmountError>(())
/// ```
#[derive(Clone, Copy, Debug, Default, PartialEq, Eq, PartialOrd, Ord, Hash)]
#[repr(transparent)]
pub struct Amount(i64);

/// The ten-thousandths of a unit, their places behind the point, and the cents of a unit.
const UNIT: u64 = 10_000;
const PLACES: usize = 4;
const CENTS: u64 = 100;

impl Amount {
    /// The least: -100,000,000 units, -10^12 ten-thousandths.
    pub const MIN: Self = Self(-1_000_000_000_000);

    /// The greatest: 100,000,000 units, 10^12 ten-thousandths.
    pub const MAX: Self = Self(1_000_000_000_000);

    /// The amount of so many ten-thousandths, where they are in range.
    ///
    /// # Errors
    ///
    /// [`AmountError::OutOfRange`] where they are not.
    ///
    /// ```
    /// use fernsponge::{Amount, AmountError};
    ///
    /// assert_eq!(Amount::from_ten_thousandths(-5_000)?.to_string(), "-0.5");
    /// assert_eq!(Amount::from_ten_thousandths(1_000_000_000_001), Err(AmountError::OutOfRange));
    /// # Ok::<(), AmountError>(())
    /// ```
    pub const fn from_ten_thousandths(number: i64) -> Result<Self, AmountError> {
        if number < Self::MIN.0 || number > Self::MAX.0 {
            return Err(AmountError::OutOfRange);
        }
        Ok(Self(number))
    }

    /// Its ten-thousandths.
    #[must_use]
    pub const fn ten_thousandths(self) -> i64 {
        self.0
    }

    /// The nearest cent, and of two the even one.
    #[must_use]
    pub fn cents(self) -> Cents {
        Total::from(self).cents()
    }
}

impl FromStr for Amount {
    type Err = AmountError;

    fn from_str(text: &str) -> Result<Self, AmountError> {
        let (negative, number) = match text.as_bytes() {
            [b'-', number @ ..] => (true, number),
            [b'+', number @ ..] => (false, number),
            number => (false, number),
        };
        let point = number.iter().position(|byte| *byte == b'.');
        let (whole, places) = match point {
            Some(at) => (&number[..at], Some(&number[at + 1..])),
            None => (number, None),
        };
        let some_digits = |part: &[u8]| !part.is_empty() && part.iter().all(u8::is_ascii_digit);
        if !some_digits(whole) || !places.map_or(true, some_digits) {
            return Err(AmountError::NoNumber);
        }
        let places = places.unwrap_or_default();
        if places.len() > PLACES {
            return Err(AmountError::TooManyPlaces);
        }
        // a number that is too long stays at the greatest there is, which is out of range too
        let filled = places.iter().chain([b'0'; PLACES].iter()).take(PLACES);
        let number = whole.iter().chain(filled).fold(0, |number: i64, digit| {
            number
                .saturating_mul(10)
                .saturating_add(i64::from(digit - b'0'))
        });
        Self::from_ten_thousandths(if negative { -number } else { number })
    }
}

impl fmt::Display for Amount {
    fn fmt(&self, f: &mut fmt::Formatter<'_>) -> fmt::Result {
        Total::from(*self).fmt(f)
    }
}

/// Why a text or a number is no amount.
#[derive(Clone, Copy, Debug, PartialEq, Eq, Hash)]
#[non_exhaustive]
pub enum AmountError {
    /// The text is no decimal number.
    NoNumber,
    /// It is one, but has more than four places behind the point.
    TooManyPlaces,
    /// It is below -100,000,000 or above 100,000,000 units.
    OutOfRange,
}

impl fmt::Display for AmountError {
    fn fmt(&self, f: &mut fmt::Formatter<'_>) -> fmt::Result {
        f.write_str(match self {
            Self::NoNumber => "no decimal number: an amount is written in digits, as -12.5 is, with a digit on both sides of a point",
            Self::TooManyPlaces => "more than four places behind the point: an amount has at most four, and none is rounded away",
            Self::OutOfRange => "out of range: an amount is from -100,000,000 to 100,000,000 currency units",
        })
    }
}

impl std::error::Error for AmountError {}

/// A sum of amounts, exact to the ten-thousandth: of an invoice, or of several. Its text is written as an [`Amount`]'s is.
///
/// ```
/// use fernsponge::{Amount, Total};
///
/// let parts = [Amount::MAX, "0.0050".parse()?].map(Total::from);
/// let total = parts[0].checked_add(parts[1]);
/// assert_eq!(total.map(|total| total.to_string()), Some("100000000.005".to_string()));
/// # Ok::<(), fernsponge::AmountError>(())
/// ```
#[derive(Clone, Copy, Debug, Default, PartialEq, Eq, PartialOrd, Ord, Hash)]
pub struct Total(i64);

impl Total {
    /// The sum of so many ten-thousandths.
    #[must_use]
    pub const fn from_ten_thousandths(number: i64) -> Self {
        Self(number)
    }

    /// Its ten-thousandths.
    #[must_use]
    pub const fn ten_thousandths(self) -> i64 {
        self.0
    }

    /// Both together, where 64 bits hold it: those of nine thousand invoices always do.
    #[must_use]
    pub const fn checked_add(self, other: Self) -> Option<Self> {
        match self.0.checked_add(other.0) {
            Some(number) => Some(Self(number)),
            None => None,
        }
    }

    /// The nearest cent, and of two the even one.
    ///
    /// ```
    /// use fernsponge::Total;
    ///
    /// let cents = [50, 150, 250, -50, -150, 151].map(|it| Total::from_ten_thousandths(it).cents());
    /// assert_eq!(cents.map(|it| it.number()), [0, 2, 2, 0, -2, 2]);
    /// ```
    #[must_use]
    pub fn cents(self) -> Cents {
        Cents(words::to_cents(self.0))
    }
}

impl From<Amount> for Total {
    fn from(amount: Amount) -> Self {
        Self(amount.0)
    }
}

impl fmt::Display for Total {
    fn fmt(&self, f: &mut fmt::Formatter<'_>) -> fmt::Result {
        let number = self.0.unsigned_abs();
        let text = format!("{}.{:04}", number / UNIT, number % UNIT);
        let text = text.trim_end_matches('0').trim_end_matches('.');
        f.pad_integral(self.0 >= 0, "", text)
    }
}

/// Whole cents. Their text has always two places: `12.34`, `-0.50`, `7.00`.
#[derive(Clone, Copy, Debug, Default, PartialEq, Eq, PartialOrd, Ord, Hash)]
pub struct Cents(i64);

impl Cents {
    /// How many they are.
    #[must_use]
    pub const fn number(self) -> i64 {
        self.0
    }
}

impl fmt::Display for Cents {
    fn fmt(&self, f: &mut fmt::Formatter<'_>) -> fmt::Result {
        let number = self.0.unsigned_abs();
        let text = format!("{}.{:02}", number / CENTS, number % CENTS);
        f.pad_integral(self.0 >= 0, "", &text)
    }
}

/// The totals of an invoice.
#[derive(Clone, Copy, Debug, Default, PartialEq, Eq, Hash)]
#[non_exhaustive]
pub struct Invoice {
    /// The exact sum of the rates. Those of an invoice's parts add up to it.
    pub sum: Total,
    /// How many of its keys have no rate.
    pub without_rate: u64,
    /// The sum in cents: the nearest, and of two the even one. Cents of parts need not add up: sums do.
    pub cents: Cents,
}

/// A rate card: a list of items, and for each of them an amount, in the items' order. It borrows these, and the pool. Nothing is checked where
/// it is made; each call checks the card, as [`check`](Self::check) does.
///
/// ```
/// use fernsponge::{Amount, Item, Pool, RateCard};
///
/// # fn main() -> Result<(), Box<dyn std::error::Error>> {
/// let mut pool = Pool::new();
/// // every lane from Germany to Austria, one to France, and nine to Poland, which get a rebate
/// let items = [
///     Item::range(pool.add(b"DE-AT/")?, pool.add(b"DE-AT0")?),
///     Item::key(pool.add(b"DE-FR/05")?),
///     Item::range_inclusive(pool.add(b"DE-PL/01")?, pool.add(b"DE-PL/09")?),
/// ];
/// let amounts: [Amount; 3] = ["12.3450".parse()?, "0.9".parse()?, "-1.25".parse()?];
/// let asked = [
///     pool.add(b"DE-AT/17")?,
///     pool.add(b"DE-FR/05")?,
///     pool.add(b"DE-FR/06")?,
///     pool.add(b"DE-PL/04")?,
/// ];
/// let card = RateCard::new(pool.bytes(), &items, &amounts);
/// assert_eq!(card.rate(b"DE-AT/17")?, Some(amounts[0]));
/// assert_eq!(card.rate(b"DE-FR/06")?, None);
///
/// let invoice = card.invoice(&asked)?;
/// assert_eq!(invoice.sum.to_string(), "11.995");
/// assert_eq!(invoice.without_rate, 1);
/// // half a cent: 12.00 is even, 11.99 is not
/// assert_eq!(invoice.cents.to_string(), "12.00");
/// # Ok(())
/// # }
/// ```
#[derive(Clone, Copy, Debug)]
pub struct RateCard<'a> {
    pool: &'a [u8],
    items: &'a [Item],
    amounts: &'a [Amount],
}

impl<'a> RateCard<'a> {
    /// The card of these.
    #[must_use]
    pub const fn new(pool: &'a [u8], items: &'a [Item], amounts: &'a [Amount]) -> Self {
        Self {
            pool,
            items,
            amounts,
        }
    }

    /// The items.
    #[must_use]
    pub const fn items(&self) -> &'a [Item] {
        self.items
    }

    /// The amounts, one for each item.
    #[must_use]
    pub const fn amounts(&self) -> &'a [Amount] {
        self.amounts
    }

    /// Whether the card is accepted: its list is one of the algebra, as [`check_list`](crate::check_list) has it for ours, and it has one amount
    /// for each item. O(items) comparisons of keys.
    ///
    /// # Errors
    ///
    /// It is not where this is refused: as [`check_list`](crate::check_list) is, and with 1 where it has not one amount for each item, which is told
    /// before the items are looked at.
    ///
    /// ```
    /// use fernsponge::{Amount, Item, Pool, RateCard, Reason};
    ///
    /// let mut pool = Pool::new();
    /// let items = [Item::key(pool.add(b"DE-FR/05")?)];
    /// let refusal = RateCard::new(pool.bytes(), &items, &[]).check().unwrap_err();
    /// assert_eq!(refusal.reason(), Reason::Malformed);
    /// # Ok::<(), fernsponge::Refusal>(())
    /// ```
    pub fn check(&self) -> Result<(), Refusal> {
        self.invoice(&[]).map(|_| ())
    }

    /// The amount of the item that holds a key of any length, or none where no item does. O(items) comparisons for the check of the card, and
    /// O(log items) for the search.
    ///
    /// # Errors
    ///
    /// As [`check`](Self::check) is refused.
    ///
    /// ```
    /// use fernsponge::{Amount, Item, Pool, RateCard};
    ///
    /// let mut pool = Pool::new();
    /// let items = [Item::range(pool.add(&[1])?, pool.add(&[5])?)];
    /// let card = RateCard::new(pool.bytes(), &items, &[Amount::MAX]);
    /// assert_eq!(card.rate(&[4, 255])?, Some(Amount::MAX));
    /// assert_eq!(card.rate(&[5])?, None);
    /// # Ok::<(), fernsponge::Refusal>(())
    /// ```
    pub fn rate(&self, key: &[u8]) -> Result<Option<Amount>, Refusal> {
        let (mut has, mut amount) = (0, 0);
        Refusal::looked(
            words::rate(
                self.pool,
                words::of_items(self.items),
                words::of_amounts(self.amounts),
                key,
                &mut has,
                &mut amount,
            ),
            |refusal| detail::card(refusal, self.pool, self.items, self.amounts.len()),
        )?;
        Ok((has == 1).then_some(Amount(amount)))
    }

    /// The totals of up to 1,000 keys, which stand in the card's pool, in any order; a key that is asked twice counts twice. More keys can be asked
    /// in parts, whose sums add up. O(items) comparisons for the check of the card, and O(log items) for each key.
    ///
    /// # Errors
    ///
    /// As [`check`](Self::check) is refused; then, of the keys, which are theirs, with 15 where there are more than 1,000, and with 2 where one is
    /// longer than 255 bytes or reaches past the pool.
    ///
    /// ```
    /// use fernsponge::{Amount, Item, Pool, RateCard};
    ///
    /// # fn main() -> Result<(), Box<dyn std::error::Error>> {
    /// let mut pool = Pool::new();
    /// let key = pool.add(b"DE-FR/05")?;
    /// let (items, amounts) = ([Item::key(key)], ["0.0050".parse::<Amount>()?]);
    /// let card = RateCard::new(pool.bytes(), &items, &amounts);
    /// let [one, three] = [card.invoice(&[key])?, card.invoice(&[key; 3])?];
    /// assert_eq!((one.cents.number(), three.cents.number()), (0, 2));
    /// let four = one.sum.checked_add(three.sum);
    /// assert_eq!(four, Some(card.invoice(&[key; 4])?.sum));
    /// assert_eq!(card.invoice(&[key; 1_001]).unwrap_err().number, 15);
    /// # Ok(())
    /// # }
    /// ```
    pub fn invoice(&self, keys: &[KeyAt]) -> Result<Invoice, Refusal> {
        let mut totals = words::Invoice::default();
        Refusal::looked(
            words::invoice(
                self.pool,
                words::of_items(self.items),
                words::of_amounts(self.amounts),
                words::of_keys(keys),
                &mut totals,
            ),
            |refusal| match refusal.side {
                Side::Ours => detail::card(refusal, self.pool, self.items, self.amounts.len()),
                Side::Theirs => detail::invoice_keys(refusal, self.pool, keys),
            },
        )?;
        Ok(Invoice {
            sum: Total(totals.sum),
            without_rate: totals.without,
            cents: Cents(totals.cents),
        })
    }
}
