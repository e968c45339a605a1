use std::error::Error;
use std::fmt;

macro_rules! refusals {
    ($($name:ident = $number:literal, $condition:literal;)*) => {
        /// Why a call was refused, or a fill stopped ([`End`](crate::End)). Where several
        /// conditions hold, the lowest number is given; only a report tests 7, 6, 3, and a search
        /// tests 31 before 22 and 23.
        ///
        /// ```
        /// use hirtxonda::{pcmpistri, Refusal};
        ///
        /// let refusal = pcmpistri(&[0; 16], &[0; 16], 128).unwrap_err();
        /// assert_eq!(refusal, Refusal::Control);
        /// assert_eq!(refusal.to_string(), "refused by number 1: the control is above 127");
        /// ```
        #[derive(Clone, Copy, Debug, PartialEq, Eq, Hash)]
        #[non_exhaustive]
        #[repr(u32)]
        pub enum Refusal {
            $(#[doc = concat!("Number ", $number, ": ", $condition, ".")] $name = $number,)*
        }

        impl Refusal {
            /// The refusal with this number.
            ///
            /// ```
            /// use hirtxonda::Refusal;
            ///
            /// assert_eq!(Refusal::from_number(3), Some(Refusal::Needle));
            /// assert_eq!(Refusal::from_number(0), None);
            /// ```
            pub fn from_number(number: u32) -> Option<Refusal> {
                match number {
                    $($number => Some(Refusal::$name),)*
                    _ => None,
                }
            }

            fn condition(self) -> &'static str {
                match self {
                    $(Refusal::$name => $condition,)*
                }
            }
        }
    };
}

refusals! {
    Control = 1, "the control is above 127";
    Text = 2, "a text has more than 1,048,576 elements";
    Needle = 3, "the needle has more than 1,024 elements";
    List = 4, "the set or the list of bounds has more than 16 bytes or 8 words";
    Odd = 5, "the list of bounds has an odd count";
    Feed = 6, "the report's input has no line feed";
    Input = 7, "the report's input has more than 65,536 bytes";
    Width = 8, "the column's width is 0 or above 20, or the number has more digits than the width";
    Exhausted = 21, "the cursor is exhausted";
    Position = 22, "the cursor's position is above its stop + 1";
    Compares = 23, "the cursor has more than 1,099,511,627,776 compares";
    Buffer = 24, "the buffer is shorter than the column's width";
    Stop = 31, "the stop is above the text's length";
    Count = 32, "the day has more than 200 entries";
    Entry = 33, "an entry has a minute above 1,439 or a name of more than 32 bytes";
    Number = 34, "an entry number stands twice";
    Page = 35, "the page is shorter than 50 bytes for each entry";
}

impl Refusal {
    /// The number of the refusal.
    ///
    /// ```
    /// assert_eq!(hirtxonda::Refusal::Buffer.number(), 24);
    /// ```
    pub fn number(self) -> u32 {
        self as u32
    }

    /// What a C call's number says: 0 that it was accepted, any other why it was refused. A search
    /// looks for absent first.
    pub(crate) fn check(number: u32) -> Result<(), Refusal> {
        match number {
            0 => Ok(()),
            _ => Err(Refusal::listed(number)),
        }
    }

    /// The refusal by a number that the library gave.
    pub(crate) fn listed(number: u32) -> Refusal {
        Refusal::from_number(number).expect("the library gives listed numbers")
    }
}

impl fmt::Display for Refusal {
    fn fmt(&self, f: &mut fmt::Formatter<'_>) -> fmt::Result {
        write!(f, "refused by number {}: {}", self.number(), self.condition())
    }
}

impl Error for Refusal {}
