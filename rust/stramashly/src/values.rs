//! The numbers of a row by name, with `From` and `TryFrom` to and from the raw
//! ones.

use std::error::Error;
use std::fmt;
use std::ops::{BitOr, BitOrAssign};

/// A number that has no name.
#[derive(Clone, Copy, Debug, PartialEq, Eq)]
pub struct UnknownCode {
    /// What it should have been: `kind`, `order` and so on.
    pub what: &'static str,
    /// The number.
    pub number: u16,
}

impl fmt::Display for UnknownCode {
    fn fmt(&self, formatter: &mut fmt::Formatter) -> fmt::Result {
        write!(formatter, "no {} has the number {}", self.what, self.number)
    }
}

impl Error for UnknownCode {}

/// An enumeration whose variants have the numbers 0 onward, in their order.
macro_rules! codes {
    ($(#[$doc:meta])* $name:ident: $raw:ty, $what:literal { $($(#[$note:meta])* $variant:ident,)* }) => {
        $(#[$doc])*
        #[derive(Clone, Copy, Debug, PartialEq, Eq, PartialOrd, Ord, Hash)]
        pub enum $name { $($(#[$note])* $variant,)* }

        impl $name {
            /// All of them, in the order of their numbers.
            pub const ALL: &'static [$name] = &[$($name::$variant,)*];
        }

        impl From<$name> for $raw {
            fn from(value: $name) -> $raw {
                value as $raw
            }
        }

        impl TryFrom<$raw> for $name {
            type Error = UnknownCode;

            fn try_from(number: $raw) -> Result<$name, UnknownCode> {
                let unknown = UnknownCode { what: $what, number: number.into() };
                $name::ALL.get(usize::from(number)).copied().ok_or(unknown)
            }
        }
    };
}

codes! {
    /// What a row does.
    Kind: u8, "kind" {
        /// A plain read.
        PlainRead,
        /// A plain write.
        PlainWrite,
        /// An atomic read.
        AtomicRead,
        /// An atomic write.
        AtomicWrite,
        /// An atomic that reads and writes.
        ReadModifyWrite,
        /// A memory barrier.
        Barrier,
        /// A control barrier.
        ControlBarrier,
        /// Of a queue agent, in version 3: availability to the host domain.
        AvailabilityToHost,
        /// Availability to the device domain.
        AvailabilityToDevice,
        /// Visibility from the host domain.
        VisibilityFromHost,
        /// Visibility from the device domain.
        VisibilityFromDevice,
        /// A domain operation from host to device.
        DomainHostToDevice,
        /// A domain operation from device to host.
        DomainDeviceToHost,
    }
}

codes! {
    /// The order of an atomic or a barrier.
    Order: u8, "order" {
        /// None.
        Relaxed,
        /// Acquire.
        Acquire,
        /// Release.
        Release,
        /// Both.
        AcquireRelease,
    }
}

codes! {
    /// The invocations that a row is for.
    Scope: u8, "scope" {
        /// Its own alone.
        Invocation,
        /// Those of its subgroup.
        Subgroup,
        /// Those of its workgroup.
        Workgroup,
        /// Those of its queue family.
        QueueFamily,
        /// All of the device.
        Device,
    }
}

codes! {
    /// The class of memory that a row accesses.
    Class: u8, "class" {
        /// Storage buffers and uniform blocks.
        Uniform,
        /// A workgroup's shared memory.
        Workgroup,
        /// Images.
        Image,
        /// Outputs of tessellation control.
        Output,
    }
}

codes! {
    /// What an agent is; before version 3 all are shader invocations.
    AgentKind: u16, "kind of agent" {
        /// A shader invocation.
        Shader,
        /// A host thread.
        Host,
        /// A queue.
        Queue,
    }
}

/// A set of named bits.
macro_rules! bits {
    ($(#[$doc:meta])* $name:ident, $what:literal, $all:literal { $($(#[$note:meta])* $bit:ident = $number:literal,)* }) => {
        $(#[$doc])*
        #[derive(Clone, Copy, Debug, Default, PartialEq, Eq, PartialOrd, Ord, Hash)]
        pub struct $name(u8);

        impl $name {
            /// None of them.
            pub const NONE: $name = $name(0);
            $($(#[$note])* pub const $bit: $name = $name($number);)*

            /// Whether all of the others are among these.
            pub fn has(self, others: $name) -> bool {
                self.0 & others.0 == others.0
            }
        }

        impl BitOr for $name {
            type Output = $name;

            fn bitor(self, other: $name) -> $name {
                $name(self.0 | other.0)
            }
        }

        impl BitOrAssign for $name {
            fn bitor_assign(&mut self, other: $name) {
                self.0 |= other.0;
            }
        }

        impl From<$name> for u8 {
            fn from(value: $name) -> u8 {
                value.0
            }
        }

        impl TryFrom<u8> for $name {
            type Error = UnknownCode;

            fn try_from(number: u8) -> Result<$name, UnknownCode> {
                let unknown = UnknownCode { what: $what, number: number.into() };
                (number <= $all).then_some($name(number)).ok_or(unknown)
            }
        }
    };
}

bits! {
    /// A row's flags.
    Flags, "sum of flags", 7 {
        /// The access is non-private.
        NON_PRIVATE = 1,
        /// It makes available.
        MAKE_AVAILABLE = 2,
        /// It makes visible.
        MAKE_VISIBLE = 4,
    }
}

bits! {
    /// A set of classes: what an atomic or a barrier is for, and a derivation's
    /// class set.
    Classes, "class set", 15 {
        /// Storage buffers and uniform blocks.
        UNIFORM = 1,
        /// Shared memory.
        WORKGROUP = 2,
        /// Images.
        IMAGE = 4,
        /// Outputs of tessellation control.
        OUTPUT = 8,
    }
}

impl From<Class> for Classes {
    fn from(class: Class) -> Classes {
        Classes(1 << u8::from(class))
    }
}
