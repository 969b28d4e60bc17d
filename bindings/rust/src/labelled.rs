/// Numbers that have names, which a trace shows beside them: what [`labelled!`](crate::labelled) makes is a field of one byte.
pub trait Labelled: Copy {
    /// What the numbers 0, 1, .. are called: printable ASCII without quotes and backslashes.
    const LABELS: &'static [&'static str];

    /// The number of this value.
    fn number(self) -> u8;

    /// The value of this number; none where it is no value's.
    fn of_number(number: u8) -> Option<Self>;
}

/// Makes an `enum` whose values have labels, and which may be a field of a probe or an event.
///
/// ```
/// use dspec::Labelled;
///
/// dspec::labelled! {
///     /// How a request ended.
///     pub enum Outcome {
///         Done = "done",
///         Aborted = "aborted",
///         Slow = "slow",
///     }
/// }
///
/// static REPLY: dspec::tracer::Event<(u64, Outcome)> = dspec::tracer::Event::new("reply", &["request", "outcome"]);
/// assert_eq!(Outcome::LABELS[Outcome::Slow.number() as usize], "slow");
/// # let _ = &REPLY;
/// ```
#[macro_export]
macro_rules! labelled {
    ($(#[$of_enum:meta])* $visible:vis enum $name:ident { $($(#[$of_value:meta])* $value:ident = $label:literal),+ $(,)? }) => {
        $(#[$of_enum])*
        #[derive(Clone, Copy, Debug, PartialEq, Eq, Hash)]
        #[repr(u8)]
        $visible enum $name {
            $($(#[$of_value])* $value,)+
        }

        impl $crate::Labelled for $name {
            const LABELS: &'static [&'static str] = &[$($label),+];

            #[inline]
            fn number(self) -> u8 {
                self as u8
            }

            #[inline]
            fn of_number(number: u8) -> Option<$name> {
                [$($name::$value),+].get(usize::from(number)).copied()
            }
        }
    };
}
