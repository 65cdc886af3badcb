//! Why a value wasn't sent, or received.
use crate::{Missed, PushError};
use std::fmt;

// An error, of sends with the value: each case, what asks for it, and what it says. (It doesn't ask the value to be `Debug`.)
macro_rules! error {
    ($(#[$doc:meta])* $name:ident $(<$value:ident>)? { $($(#[$why:meta])* $case:ident $(($held:ident))?, $is:ident, $says:literal;)* }) => {
        $(#[$doc])*
        #[derive(Clone, Copy, PartialEq, Eq)]
        pub enum $name $(<$value>)? {
            $($(#[$why])* $case $(($held))?,)*
        }

        impl $(<$value>)? $name $(<$value>)? {
            $(
                #[doc = concat!("Whether it is `", stringify!($case), "`.")]
                pub fn $is(&self) -> bool {
                    matches!(self, $name::$case { .. })
                }
            )*
        }

        impl $(<$value>)? fmt::Debug for $name $(<$value>)? {
            fn fmt(&self, f: &mut fmt::Formatter<'_>) -> fmt::Result {
                f.write_str(match self {
                    $($name::$case { .. } => concat!(stringify!($case) $(, error!(@ $held))?),)*
                })
            }
        }

        impl $(<$value>)? fmt::Display for $name $(<$value>)? {
            fn fmt(&self, f: &mut fmt::Formatter<'_>) -> fmt::Result {
                f.write_str(match self {
                    $($name::$case { .. } => $says,)*
                })
            }
        }

        impl $(<$value>)? std::error::Error for $name $(<$value>)? {}
    };
    (@ $held:ident) => { "(..)" };
}

// Errors of sends: the cases of each beside an end and wear, each with why the push was missed.
macro_rules! unsent {
    ($($(#[$doc:meta])* $name:ident { $($(#[$why:meta])* $case:ident by $missed:ident, $is:ident, $says:literal;)* })*) => {$(
        error! {
            $(#[$doc])*
            $name<T> {
                $($(#[$why])* $case(T), $is, $says;)*
                /// All receivers are gone.
                Disconnected(T), is_disconnected, "sending on a disconnected channel";
                /// The channel is worn out: no value goes in any more.
                Worn(T), is_worn, "sending on a channel that is worn out";
            }
        }

        impl<T> $name<T> {
            pub(super) fn of(PushError { why, value }: PushError<T>) -> $name<T> {
                match why {
                    $(Missed::$missed => $name::$case(value),)*
                    Missed::Worn => $name::Worn(value),
                    _ => $name::Disconnected(value),
                }
            }

            /// The value.
            pub fn into_inner(self) -> T {
                match self {
                    $($name::$case(value) => value,)*
                    $name::Disconnected(value) | $name::Worn(value) => value,
                }
            }
        }
    )*};
}

// Errors of receives, in the same way.
macro_rules! unreceived {
    ($($(#[$doc:meta])* $name:ident { $($(#[$why:meta])* $case:ident by $missed:ident, $is:ident, $says:literal;)* })*) => {$(
        error! {
            $(#[$doc])*
            $name {
                $($(#[$why])* $case, $is, $says;)*
                /// The channel is empty, and all senders are gone.
                Disconnected, is_disconnected, "receiving on an empty and disconnected channel";
                /// The channel is worn out: no value comes out any more.
                Worn, is_worn, "receiving on a channel that is worn out";
            }
        }

        impl $name {
            pub(super) fn of(why: Missed) -> $name {
                match why {
                    $(Missed::$missed => $name::$case,)*
                    Missed::Worn => $name::Worn,
                    _ => $name::Disconnected,
                }
            }
        }
    )*};
}

unsent! {
    /// A value that wasn't sent by [`Sender::send`](super::Sender::send).
    SendError {}

    /// A value that wasn't sent by [`Sender::try_send`](super::Sender::try_send).
    TrySendError {
        /// The channel is full.
        Full by Full, is_full, "sending on a full channel";
        /// Others were in the way, or as many calls were under way as may be: try again.
        Busy by Busy, is_busy, "others were in the way of sending";
    }

    /// A value that wasn't sent by [`Sender::send_timeout`](super::Sender::send_timeout).
    SendTimeoutError {
        /// The time was over: the channel was full, or others were in the way.
        Timeout by TimedOut, is_timeout, "timed out waiting on send operation";
    }
}

unreceived! {
    /// Why nothing was received by [`Receiver::recv`](super::Receiver::recv).
    RecvError {}

    /// Why nothing was received by [`Receiver::try_recv`](super::Receiver::try_recv).
    TryRecvError {
        /// The channel is empty.
        Empty by Empty, is_empty, "receiving on an empty channel";
        /// Others were in the way, or as many calls were under way as may be: try again.
        Busy by Busy, is_busy, "others were in the way of receiving";
    }

    /// Why nothing was received by [`Receiver::recv_timeout`](super::Receiver::recv_timeout).
    RecvTimeoutError {
        /// The time was over: the channel was empty, or others were in the way.
        Timeout by TimedOut, is_timeout, "timed out waiting on receive operation";
    }
}
