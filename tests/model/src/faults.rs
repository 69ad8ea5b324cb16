//! Slips that can be switched on, to see whether a comparison notices them.

#[derive(Clone, Copy, Debug, PartialEq, Eq)]
pub enum Fault {
    None,
    /// A sheet of edition 1 is called old, whether it breaks a rule or not.
    OldBeforeBad,
    /// An old sheet is served as an accepted one: so did the release before.
    OldServed,
    /// A conversion goes by the edition alone.
    ConvertsBad,
    /// The conversion of a sheet of edition 2 is said to be carried out.
    ConvertsAgain,
    /// A conversion names the later rules.
    ConvertsToLater,
    /// A conversion gives the sheet a user region.
    ConvertClaimsUser,
    /// A conversion ends programming mode.
    ConvertEndsProgramming,
    /// A write takes place before the rights are looked at.
    StoreFirst,
    /// Level comparison turned round.
    LevelsReversed,
    /// An unknown key leaves the level as it was.
    WrongKeyKeepsLevel,
    /// A new connection inherits the old level.
    ConnectKeepsLevel,
    /// A memory range may leave its region as long as bodies follow it, whatever their addresses and levels.
    RunsIntoNeighbour,
    /// The first element is taken to be number 0.
    CountsFromZero,
    /// A session of level 1 may replace key 0.
    LevelOneSetsKeyZero,
    /// A property write is answered as usual, but the sheet stays as it was.
    AnswersOnly,
    /// Whatever a property write holds, the stored count becomes the maximum.
    InventsCount,
    /// Elements are read up to the maximum, whatever the count.
    ReadsToMaximum,
    /// A write past the count leaves the elements that it jumps.
    LeavesJumped,
    /// A bit write asks for the write right alone.
    BitWriteWithoutRead,
    /// User memory is served from the device's memory at the same address.
    UserFromDeviceMemory,
    /// A read of user memory goes by the four low bits of n alone, as if the others extended the address.
    ExtensionIgnored,
    /// A connectionless restart leaves the open sessions as they are.
    RestartLeavesSession,
    /// A descriptor type that the device has not is repeated in the answer.
    RepeatsType,
    /// The later rules are in force whatever byte 30 says.
    AlwaysLater,
    /// A memory range must lie in one region.
    OneRegionAlone,
    /// A memory range may go from a region to its neighbour, and no further.
    TwoRegionsAtMost,
    /// The levels of the region in which a memory range begins count for all of it.
    FirstLevelsForAll,
    /// A memory range may go over a gap of one byte between two regions.
    PassesOneByteGap,
    /// A range of device memory goes on in user memory.
    RunsIntoUserMemory,
    /// A memory range goes on at address 0 behind the last address.
    WrapsAtTheTop,
    /// A memory write that is denied stores the bytes that are permitted.
    StoresPermittedBytes,
    /// A restart on a connection leaves the other as it is.
    RestartLeavesOther,
    /// Both connections have one level, that of the key offered last.
    OneLevel,
    /// A connect puts both connections to level 3.
    ConnectResetsBoth,
    /// A disconnect closes both connections.
    DisconnectEndsBoth,
    /// A wrong key takes its rights from the other connection too.
    WrongKeyLowersBoth,
    /// A request has the level of the other connection if that is better.
    BetterLevelCounts,
    /// A number that is no connection's is taken for connection 1 in a request.
    UnknownTakenForSecond,
    /// A connect with a number that is no connection's gives 1.
    UnknownConnects,
    /// A number that is no connection's is refused in every mode.
    NumberAlwaysRead,
    /// A connectionless request puts the connection that it happens to name to level 3.
    UnconnectedTakesLevel,
    /// A denied read of memory has the byte in place of the address's low byte.
    DenialTellsByte,
    /// A read of memory is denied with 12 and no answer where the byte is below 64.
    DeniesLowOtherwise,
    /// A property write is answered with what stood there before.
    WriteTellsOld,
    /// A description has a byte of the body in place of the levels.
    DescriptionTellsByte,
    /// A count stored leaves off the last element if its first byte is below 64.
    CountFollowsBody,
    /// A property write names the part with its elements twice, and not its count.
    CountUnnamed,
    /// A save gives the last number once more, so the first is 0.
    NumbersFromZero,
    /// A save counts its room without the new entry.
    RoomWithoutEntry,
    /// A save is refused for places before numbers.
    PlacesBeforeNumbers,
    /// A save is refused for room before places.
    RoomBeforePlaces,
    /// A restore asks for level 1 where level 0 is needed.
    RestoresAtLevelOne,
    /// A restore goes by the better of both levels.
    RestoresByEither,
    /// A restore leaves the counts as they are.
    RestoreLeavesCounts,
    /// A restore gives back what the writable bits let be written, and no more.
    RestoresByLevels,
    /// A restore stores before it judges entries and counts.
    RestoresFirst,
    /// A restore does not look at the counts of the version.
    CountsUntested,
    /// A restore is refused for its level before its number.
    LevelBeforeNumber,
    /// Bodies move with the table, but the offsets stay.
    OffsetsNotMoved,
    /// A remove leaves the bodies where they are.
    HoleLeft,
    /// A remove leaves what stood between the new end of the bodies and the old one.
    BytesNotZeroed,
    /// A remove zeroes what stands behind the bodies.
    TouchesBehind,
    /// A remove gives the last number back.
    NumberReused,
    /// One event more is played than the limit says.
    LimitOffByOne,
    /// Playing begins with the first event, however many have been played.
    PlaceNotKept,
    /// The event after a refused request is left out.
    PassesAfterRefused,
    /// A refused request is not counted.
    RefusedUncounted,
    /// The connection of a trace's event is taken from the low four bits.
    ConnectionFromLowBits,
    /// The offsets of a trace are not judged.
    OffsetsUnjudged,
    /// A log that is too short is filled as far as it goes.
    LogUnjudged,
    /// A byte keeps the mark of the event that changed it first.
    FirstMarkStays,
    /// The events of every call are numbered from 1.
    NumbersBeginAnew,
    /// Levels have no marks.
    LevelsUnmarked,
    /// Connected data from a stranger acts on connection 0.
    StrangerActs,
    /// A third that connects takes the place of the second.
    ThirdTakesPlace,
    /// A frame for another device is answered.
    AnswersForAnother,
    /// A connect leaves the address of the connection as it was.
    ConnectKeepsAddress,
    /// The answer to a group's read goes to who asked.
    GroupAnsweredAtAsker,
    /// A stranger's disconnect closes connection 0.
    StrangerDisconnects,
    /// A partner that connects again gets the other place, if that is free.
    SecondConnectMoves,
    /// What transport alone deals with is not asked whom it is for.
    ForAnotherLast,
    /// The source of a frame is read as if it had no additional information.
    SourceAtFixedPlace,
    /// The length of a version counts its entry.
    LengthWithEntry,
    /// The answer has the hop count of the request.
    HopsCopied,
    /// What comes from the device's own address to itself is heard as anybody's.
    HearsItself,
    /// What comes from the device's own address to a group or to all is not heard.
    OwnUnheard,
}

impl Fault {
    /// Those of the device.
    pub const ALL: [Fault; 40] = [
        Fault::StoreFirst,
        Fault::LevelsReversed,
        Fault::WrongKeyKeepsLevel,
        Fault::ConnectKeepsLevel,
        Fault::RunsIntoNeighbour,
        Fault::CountsFromZero,
        Fault::LevelOneSetsKeyZero,
        Fault::AnswersOnly,
        Fault::InventsCount,
        Fault::ReadsToMaximum,
        Fault::LeavesJumped,
        Fault::BitWriteWithoutRead,
        Fault::UserFromDeviceMemory,
        Fault::ExtensionIgnored,
        Fault::RestartLeavesSession,
        Fault::RepeatsType,
        Fault::AlwaysLater,
        Fault::OneRegionAlone,
        Fault::TwoRegionsAtMost,
        Fault::FirstLevelsForAll,
        Fault::PassesOneByteGap,
        Fault::RunsIntoUserMemory,
        Fault::WrapsAtTheTop,
        Fault::StoresPermittedBytes,
        Fault::RestartLeavesOther,
        Fault::OneLevel,
        Fault::ConnectResetsBoth,
        Fault::DisconnectEndsBoth,
        Fault::WrongKeyLowersBoth,
        Fault::BetterLevelCounts,
        Fault::UnknownTakenForSecond,
        Fault::UnknownConnects,
        Fault::NumberAlwaysRead,
        Fault::UnconnectedTakesLevel,
        Fault::DenialTellsByte,
        Fault::DeniesLowOtherwise,
        Fault::WriteTellsOld,
        Fault::DescriptionTellsByte,
        Fault::CountFollowsBody,
        Fault::CountUnnamed,
    ];

    /// Those of old sheets and their conversion.
    pub const OLD: [Fault; 7] = [
        Fault::OldBeforeBad,
        Fault::OldServed,
        Fault::ConvertsBad,
        Fault::ConvertsAgain,
        Fault::ConvertsToLater,
        Fault::ConvertClaimsUser,
        Fault::ConvertEndsProgramming,
    ];

    /// Those by which a converted sheet is another than the old one was.
    pub const CONVERTING: [Fault; 3] =
        [Fault::ConvertsToLater, Fault::ConvertClaimsUser, Fault::ConvertEndsProgramming];

    /// Those of the calls on a store of versions.
    pub const STORE: [Fault; 17] = [
        Fault::LengthWithEntry,
        Fault::NumbersFromZero,
        Fault::RoomWithoutEntry,
        Fault::PlacesBeforeNumbers,
        Fault::RoomBeforePlaces,
        Fault::RestoresAtLevelOne,
        Fault::RestoresByEither,
        Fault::RestoreLeavesCounts,
        Fault::RestoresByLevels,
        Fault::RestoresFirst,
        Fault::CountsUntested,
        Fault::LevelBeforeNumber,
        Fault::OffsetsNotMoved,
        Fault::HoleLeft,
        Fault::BytesNotZeroed,
        Fault::TouchesBehind,
        Fault::NumberReused,
    ];

    /// Those of playing a trace.
    pub const TRACE: [Fault; 10] = [
        Fault::LimitOffByOne,
        Fault::PlaceNotKept,
        Fault::PassesAfterRefused,
        Fault::RefusedUncounted,
        Fault::ConnectionFromLowBits,
        Fault::OffsetsUnjudged,
        Fault::LogUnjudged,
        Fault::FirstMarkStays,
        Fault::NumbersBeginAnew,
        Fault::LevelsUnmarked,
    ];

    /// Those of serving frames.
    pub const LINK: [Fault; 12] = [
        Fault::StrangerActs,
        Fault::ThirdTakesPlace,
        Fault::AnswersForAnother,
        Fault::ConnectKeepsAddress,
        Fault::GroupAnsweredAtAsker,
        Fault::StrangerDisconnects,
        Fault::SecondConnectMoves,
        Fault::ForAnotherLast,
        Fault::HopsCopied,
        Fault::HearsItself,
        Fault::OwnUnheard,
        Fault::SourceAtFixedPlace,
    ];

    /// Those by which one tool meets what the other did, though that changed no byte and was no restart.
    pub const MIXING: [Fault; 7] = [
        Fault::OneLevel,
        Fault::ConnectResetsBoth,
        Fault::DisconnectEndsBoth,
        Fault::WrongKeyLowersBoth,
        Fault::BetterLevelCounts,
        Fault::UnconnectedTakesLevel,
        Fault::RestoresByEither,
    ];

    /// Those by which a tool learns of a byte that it may not read.
    pub const TELLING: [Fault; 6] = [
        Fault::BitWriteWithoutRead,
        Fault::DenialTellsByte,
        Fault::DeniesLowOtherwise,
        Fault::WriteTellsOld,
        Fault::DescriptionTellsByte,
        Fault::CountFollowsBody,
    ];
}

/// The fault in force. With `ON` false every question folds to `false`, so
/// the plain entry points carry none of this.
#[derive(Clone, Copy)]
pub(crate) struct Faults<const ON: bool>(pub Fault);

impl<const ON: bool> Faults<ON> {
    #[inline(always)]
    pub fn is(self, fault: Fault) -> bool {
        ON && self.0 == fault
    }

    /// The fault itself.
    #[inline(always)]
    pub fn which(self) -> Fault {
        if ON {
            self.0
        } else {
            Fault::None
        }
    }
}
