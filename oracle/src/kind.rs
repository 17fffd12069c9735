//! The kinds of records, by the number that each has in the stream.

#[derive(Clone, Copy)]
pub enum Kind {
    End = 0,
    Scale = 1,
    Planes = 2,
    Intra = 3,
    Threshold = 4,
    Hadamard = 5,
    Satd = 6,
    Fresh = 7,
    State = 8,
    Step = 9,
    Film = 10,
    Log = 11,
    Append = 12,
    Reduce = 13,
    StripsStart = 14,
    StripsAdd = 15,
    StripsEnd = 16,
    // The same over samples of 16 bits.
    Planes16 = 17,
    Intra16 = 18,
    Satd16 = 19,
    Film16 = 20,
    Reduce16 = 21,
    StripsAdd16 = 22,
}
