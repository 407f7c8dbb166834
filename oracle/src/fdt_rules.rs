//! The rules that document 02, request 6, has for a device tree, one by one. A tree that breaks one of them
//! alone is one that a reader without this rule accepts.

/// What is said of each is how a reader goes on that forgives it.
#[derive(Clone, Copy, Debug, PartialEq, Eq)]
pub enum Rule {
    /// Under 40 bytes there is nothing to go on with.
    HeaderInData,
    Magic,
    Version,
    LastCompatible,
    TotalInData,
    ReservationBehindHeader,
    ReservationMultiple,
    /// There is a pair whose 16 bytes are all 0, somewhere in the data.
    ReservationEnds,
    ReservationBeforeStructure,
    /// A pair with one half zero ends the block too.
    BothHalves,
    /// Pairs stand at steps of 8.
    StepsOf16,
    /// Padding is counted from the structure's start.
    StructureMultiple,
    SizeMultiple,
    StructureBeforeStrings,
    /// The strings end with the data at the latest.
    StringsInTotal,
    /// Names, values and tokens may stand behind the structure's end.
    InsideStructure,
    EndFills,
    /// The structure's end serves as END.
    EndIsThere,
    EndInsideNoNode,
    RootIsThere,
    /// Another root follows.
    OneRoot,
    RootName,
    Nesting,
    /// It is passed over.
    PropertyInsideNode,
    PropertiesFirst,
    /// It is passed over.
    EndNodeInsideNode,
    /// It is taken for a NOP.
    KnownToken,
    /// The lowest byte is taken for the token.
    WholeToken,
    /// A token may have its lowest byte first.
    BigEndianTokens,
    NamePadding,
    ValuePadding,
    /// The value is taken to be empty.
    ValueInside,
    /// The name is taken to be empty.
    NameOffset,
    /// The name ends with the strings.
    NameEnds,
}
