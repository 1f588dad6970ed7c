//! Small tables made by hand, with the answers that the rules give them.

/// A table whose answer was worked out by hand.
pub struct Litmus {
    pub name: &'static str,
    pub bytes: Vec<u8>,
    /// Whether chains are on.
    pub chains: bool,
    /// What a check answers.
    pub answer: &'static str,
}

/// Every case.
pub fn litmus() -> Vec<Litmus> {
    let named = |(name, digits, answer): &Case| Litmus {
        name,
        bytes: from_hex(digits),
        chains: false,
        answer,
    };
    let with_chains = CHAINS.iter().map(|case| Litmus {
        chains: true,
        ..named(case)
    });
    CONTROL_BARRIERS
        .iter()
        .chain(&COUNTED_RANKS)
        .chain(&HOSTS)
        .chain(&NO_CHAINS)
        .map(named)
        .chain(with_chains)
        .collect()
}

type Case = (&'static str, &'static str, &'static str);

const CONTROL_BARRIERS: [Case; 4] = [
    (
        "two rows of one instance release and acquire",
        "00000050010204000000000000000000 00000001 010000000001000400000001ffff0000 \
         060003020106020000090000ffff0000 060103020106020000090000ffff0000 \
         00010000000100040000000100000000",
        "race-free",
    ),
    (
        "execution only, between two fences",
        "00000070010206000000000000000000 00000001 010000000001000400000001ffff0000 \
         050002020102000000000000ffff0000 060000000000020000090000ffff0000 \
         060100000000020000090000ffff0000 050101020104000000000000ffff0000 \
         00010000000100040000000100000000",
        "race-free",
    ),
    (
        "a memory scope that the agents don't share",
        "00000050010204000000000000000000 00000001 010000020003000400000001ffff0000 \
         060003010100020000090000ffff0000 060103020104020000090000ffff0000 \
         00010000000100040000000100000000",
        "race 0 3 0",
    ),
    (
        "an execution scope that the agents don't share",
        "00000030010202000000000000000000 00000001 060003020100010000090000ffff0000 \
         060103020100010000090000ffff0000",
        "refused 14 1",
    ),
];

const COUNTED_RANKS: [Case; 2] = [
    (
        "a release sequence over the end of the counter",
        "00000066020305000000000000000000 00000001 000000000002 \
         010000000001000400000001ffff0000 030002020103000400040002ffffffff \
         04020002000100040004000200010000 02010102010500040004000200020000 \
         00010000000100040000000100000000",
        "race-free",
    ),
    (
        "one count too many",
        "0000003a020103000000000000000300 00020001000400040002ffff0000 \
         030000020001000400040002ffff7fff 030000020001000400040002ffff8000",
        "refused 15 2",
    ),
];

const HOSTS: [Case; 5] = [
    (
        "a host write uploaded: available, to the device, visible, read",
        "0000007e030305000000000000000001 0000000000000002 0000000000000000 \
         010000000000000400000001ffff0000 070100000000000000000000ffff0000 \
         0b0100000000000000000000ffff0000 0a0100000000000000000000ffff0000 \
         00020000000000040000000700000000 0004 00000001 00010002 00020003 00030004",
        "race-free",
    ),
    (
        "an upload without the domain operation",
        "0000006a030304000000000000000001 0000000000000002 0000000000000000 \
         010000000000000400000001ffff0000 070100000000000000000000ffff0000 \
         0a0100000000000000000000ffff0000 00020000000000040000000700000000 \
         0003 00000001 00010002 00020003",
        "race 0 3 0",
    ),
    (
        "an upload that only the host's next row is depended on for",
        "0000008e030306000000000000000001 0000000000000002 0000000000000000 \
         010000000000000400000001ffff0000 010000000000000400080001ffff0000 \
         070100000000000000000000ffff0000 0b0100000000000000000000ffff0000 \
         0a0100000000000000000000ffff0000 00020000000000040000000700000000 \
         0004 00010002 00020003 00030004 00040005",
        "race 0 5 0",
    ),
    (
        "a host read, then a shader write that depends on it by way of a queue",
        "00000056030303000000000000000001 0000000000000002 0000000000000000 \
         000000000000000400000001ffff0000 0a0100000000000000000000ffff0000 \
         010200000000000400000007ffff0000 0002 00000001 00010002",
        "race-free",
    ),
    (
        "a shader write made available and visible by the device domain",
        "0000006a030304000000000000000000 0000000000000002 0005000000000000 \
         010000000000000400000001ffff0000 080100000000000000000000ffff0000 \
         0a0100000000000000000000ffff0000 00020000000000040000000700000000 \
         0003 00000001 00010002 00020003",
        "race-free",
    ),
];

const NO_CHAINS: [Case; 1] = [(
    "available to the writer's workgroup only, and read in another",
    AVAILABLE_BY_TWO,
    "race 0 5 0",
)];

const CHAINS: [Case; 2] = [
    (
        "available to the workgroup, then to the device by another of it",
        AVAILABLE_BY_TWO,
        "race-free",
    ),
    (
        "visible from the device to one of the workgroup, then to another",
        "00000076010306000000000100000000 00000001 000000000000 \
         010000000001000400000001ffff0000 030002040103000400040002ffff0001 \
         02010104010500040004000200010000 030102020103000400080003ffff0001 \
         02020102010500040008000300030000 00020000000100040000000100000000",
        "race-free",
    ),
];

/// A write released to a workgroup; one of the workgroup releases it to the
/// device; one of another workgroup reads it.
const AVAILABLE_BY_TWO: &str = "00000076010306000000000000000000 00000001 000000010000 \
    010000000001000400000001ffff0000 030002020103000400040002ffff0001 \
    02010102010500040004000200010000 030102040103000400080003ffff0001 \
    02020104010500040008000300030000 00020000000100040000000100000000";

fn from_hex(digits: &str) -> Vec<u8> {
    let digits: String = digits.split_whitespace().collect();
    (0..digits.len())
        .step_by(2)
        .map(|at| u8::from_str_radix(&digits[at..at + 2], 16).expect("two hex digits"))
        .collect()
}
