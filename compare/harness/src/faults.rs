//! Named faults that the second implementation can be given, to show that a comparison finds them.

macro_rules! faults {
    ($($name:ident $part:ident $says:literal,)*) => {
        #[derive(Clone, Copy, Debug, PartialEq, Eq)]
        pub enum Fault { $($name,)* }

        impl Fault {
            pub const ALL: &[Fault] = &[$(Fault::$name,)*];

            /// What goes wrong, in a sentence.
            pub fn says(self) -> &'static str {
                match self { $(Fault::$name => $says,)* }
            }

            /// Whose fault it is.
            pub fn part(self) -> player::command::Part {
                match self { $(Fault::$name => player::command::Part::$part,)* }
            }
        }
    };
}

impl Fault {
    /// Whether it shows by change rule 2 alone, which the original does not have.
    pub fn of_rule_2(self) -> bool {
        matches!(self, Fault::RuleIgnored | Fault::OnlyTotStoredCrc | Fault::PlainStoredCrc)
    }

    /// Whether it shows where complete PATs are followed alone.
    pub fn of_pats(self) -> bool {
        let first = Fault::PatSectionReplaces as usize;
        let last = Fault::PatStoreShared as usize;
        (first..=last).contains(&(self as usize))
    }

    /// Whether it shows where entries are listed alone.
    pub fn of_events(self) -> bool {
        (Fault::DigitOfTen as usize..=Fault::RowsClosedUp as usize).contains(&(self as usize))
    }

    /// Whether it shows where networks, bouquets and services are listed alone.
    pub fn of_networks(self) -> bool {
        (Fault::UnmarkedSetListed as usize..=Fault::TablesCountOfThePage as usize).contains(&(self as usize))
    }

    /// Whether it shows where guides are compared alone.
    pub fn of_guides(self) -> bool {
        self.part() == player::command::Part::Guides
    }

    /// Whether it shows in logs alone.
    pub fn of_logs(self) -> bool {
        self.part() == player::command::Part::Logs
    }

    /// Whether it shows where many sections are pushed in one call alone.
    pub fn of_all(self) -> bool {
        (Fault::AllSetPassed as usize..=Fault::AllOnCurrentInput as usize).contains(&(self as usize))
    }

    /// Whether it shows in tables of 32 segments alone.
    pub fn of_whole_tables(self) -> bool {
        self == Fault::LastSegmentUnseen
    }

    /// Whether the original has a counterpart of the faulty part.
    pub fn has_original(self) -> bool {
        let of_the_port = self.of_events() || self.of_networks() || self.of_guides() || self.of_logs() || self.of_all();
        !self.of_rule_2() && !self.of_inputs() && !self.of_pats() && !self.of_no_pid() && !of_the_port
    }

    /// Whether it shows without a PID alone: the original is handed no such command.
    pub fn of_no_pid(self) -> bool {
        matches!(self, Fault::NoPidIsPidZero | Fault::NoPidCollected | Fault::NoneDropped)
    }

    /// Whether it shows where there are several inputs alone.
    pub fn of_inputs(self) -> bool {
        let of_gate = matches!(self, Fault::InputNotInKey | Fault::InputBeforePid | Fault::PatOfAnotherInput);
        let of_eit = matches!(self, Fault::InputNotInEitKey | Fault::InputNotInScheduleKey | Fault::InputNotInFilter);
        of_gate || of_eit || matches!(self, Fault::InputNotInSetKey | Fault::InputBeforeNoPid)
    }
}

faults! {
    KnownKeyMoves Gate "a known gate key moves to the end",
    KnownKeyStays Gate "a known gate key keeps its old version and change number",
    CapacityPlusOne Gate "the gate holds one key more than its capacity",
    CapacityZeroHoldsNone Gate "capacity 0 holds no key at all",
    EvictionUncounted Gate "a key that leaves the gate is not counted",
    VersionIgnored Gate "only the change number is compared",
    ChangeIgnored Gate "only the version is compared",
    NumberNotInKey Gate "section_number is no part of the gate's key",
    HeaderAtEleven Gate "a long form of 11 bytes is read as if it had a header",
    TotUnchecked Gate "the CRC of a short-form TOT is not checked",
    TotStoredCrc Gate "by rule 1 a TOT's change number is its stored CRC",
    RuleIgnored Gate "by rule 2 a TOT's change number is the CRC over all its bytes",
    OnlyTotStoredCrc Gate "by rule 2 the change number of a long form of 4 to 11 bytes is the CRC over all its bytes",
    PlainStoredCrc Gate "by rule 2 the change number of a section without a CRC is its last four bytes",
    ShortAsMismatch Gate "a section too short for its CRC is told as a mismatch",
    NumbersExchanged Gate "the CRC worked out is told before the CRC stored",
    FailureUncounted Gate "a failure is not counted under its own counter",
    FailureHeld Gate "a section of wrong CRC is held",
    RepeatFollowed Gate "a PAT emitted only because repeats are on is followed",
    NetworkPidFollowed Gate "the PID of program 0 is followed",
    ProtectedDropped Gate "a PAT drops a protected PID",
    FormerKept Gate "PIDs of the former PAT are never dropped",
    PatRemainderRead Gate "a PAT with a remainder after its groups of four is followed",
    PatNextIgnored Gate "a PAT marked next is not followed",
    InputNotInKey Gate "the input is no part of the gate's key",
    InputBeforePid Gate "an input that there is not is answered before a PID that there is not",
    PatOfAnotherInput Gate "a PAT changes the watch of input 0, whatever input it came on",

    PatSectionReplaces Gate "the second section of a PAT replaces the first's PIDs",
    PatMarkedNext Gate "a PAT marked next enters the PAT store",
    PatOnAnyPid Gate "a PAT on another PID than 0 enters the PAT store",
    PatSuppressed Gate "a suppressed PAT section does not enter the PAT store",
    PatSuppressedUnfollowed Gate "a PAT that a suppressed section completes is not followed",
    PatOverlong Gate "a PAT section of more than 1,024 bytes enters the PAT store",
    PatIncompleteFollowed Gate "the PIDs of a PAT are added before it is complete",
    PatConflictFollowed Gate "a section that conflicts in the PAT store is followed",
    PatDropsProtected Gate "a complete PAT drops a protected PID",
    PatLastSectionOnly Gate "of a complete PAT the last section alone is followed",
    PatNetworkOfASecond Gate "program 0 of a second section is followed",
    PatFailed Gate "a PAT section of wrong CRC enters the PAT store",
    PatOfTheFormerManner Gate "a PAT enters the PAT store where each changed section is followed",
    PatEvictionUncounted Gate "a PAT that leaves the PAT store is not counted",
    PatEvictionInTheGate Gate "a PAT that leaves the PAT store is counted with the gate's keys",
    PatStreamIgnored Gate "transport_stream_id is no part of the PAT store's key",
    PatBegunForgetsFormer Gate "the first section of another PAT forgets the former one's PIDs",
    PatLeftByOpening Gate "an opening leaves the row of the PAT store",
    PatCountLeftByOpening Gate "an opening leaves the count of the PAT store",
    PatStoreShared Gate "all inputs have one PAT store",

    NewestLeaves Sets "the most recently touched key leaves",
    RepeatUntouched Sets "a repeat does not make its key the newest",
    ConflictUntouched Sets "a conflict does not make its key the newest",
    ConflictReplaces Sets "a conflict replaces the section",
    LastIgnored Sets "another last_section_number does not empty the row",
    VersionKeepsRow Sets "another version does not empty the row",
    NoPidIsPidZero Sets "no PID is taken for PID 0",
    InputBeforeNoPid Sets "an input that there is not is answered before a PID that is missing",
    CurrentNextIgnored Sets "current_next is no part of the key",
    ClearZeroes Sets "clearing sets the eviction count to 0",
    CrcBeforeNumber Sets "a wrong CRC is answered before a wrong section number",
    LimitZeroHoldsOne Sets "limit 0 holds one key",
    LeavingCellsKept Sets "the cells of a row that leaves or is emptied are not free for the section that did it",
    LimitBeforeLength Sets "limit 0 is looked at before the cell's size",
    InputNotInSetKey Sets "the input is no part of a set's key",

    EventsUnread Eit "the event loop is not read to its end",
    FirstSegmentWins Eit "the first segment_last_section_number of a segment stays",
    RepeatSetsSegment Eit "a repeat sets its segment's last number",
    SegmentPastLast Eit "a segment's end is not held to last_section_number",
    LastSegmentUnseen Eit "the segment that starts at 248 is not looked at",
    NewSectionKeepsMark Eit "a new section does not clear the mark",
    PresentNeedsAll Eit "a present/following set waits for every section",
    RangeMarks Eit "a set refused for its range is marked",
    RangePastKindRefused Eit "a last_table_id past the kind is refused",
    NoRefill Eit "a schedule whose last_table_id changes is not filled again",
    RefillMarkedOnly Eit "a schedule is filled again with marked sets only",
    NewScheduleFilled Eit "a new schedule is filled with the sets that are complete",
    ScheduleNotTouched Eit "a known schedule does not become the newest",
    EvictedLeavesSchedule Eit "a schedule loses the copy of a set that is evicted",
    CopiesNameNoCell Eit "cells that only a schedule's copies name are free",
    DropKeepsSchedules Eit "a drop leaves the schedules",
    DropCountsEvictions Eit "a drop counts what goes as evicted",
    ScheduleWithoutNetwork Eit "original_network_id is no part of a schedule's key",
    NoPidCollected Eit "a section without a PID is collected",
    NoneDropped Eit "a filter that wants no PID is answered 7",
    InputNotInEitKey Eit "the input is no part of the key of an EIT's set",
    InputNotInScheduleKey Eit "the input is no part of a schedule's key",
    InputNotInFilter Eit "a drop that asks for one input drops what matches on every input",

    GapIgnored Demux "a lost packet does not drop the section under way",
    CopyRead Demux "a packet that is repeated once is read again",
    ThirdCopyIgnored Demux "a packet that is repeated twice is ignored twice",
    CounterStopsAtFifteen Demux "counter 0 does not follow counter 15",
    JumpUnread Demux "a packet that does not follow is not read",
    AnnouncedGoesOn Demux "a jump that discontinuity_indicator announces drops nothing",
    StuffingRead Demux "table_id FF begins a section",
    BehindEndRead Demux "without a start, sections begin behind the end of the one under way",
    PointerIgnored Demux "sections begin directly behind pointer_field",
    PointerPastUsed Demux "a pointer past the end leaves the payload to the section under way",
    UnfinishedGoesOn Demux "a section that is not finished before the pointer goes on",
    EmptyStartKeeps Demux "a start without a byte does not drop the section under way",
    CutHeaderDropped Demux "a section of which one or two bytes are there is dropped",
    LengthOfElevenBits Demux "section_length has eleven bits",
    ErrorRead Demux "a packet marked as damaged is read",
    ScrambledRead Demux "a scrambled packet is read",
    ReservedRead Demux "adaptation_field_control 00 is read as a payload",
    FieldOnlyCounts Demux "a packet that has an adaptation field alone is looked at for its counter",
    EmptyPayloadIgnored Demux "the counter of a payload of no bytes is not taken",
    FieldPastEndIgnored Demux "an adaptation field past the end is no payload, but not malformed",
    MalformedUncounted Demux "a malformed packet is not counted as such",
    MalformedBeforeInput Demux "a malformed packet is answered before an input that there is not",
    BadInputCounted Demux "a packet on an input that there is not is counted",
    UnwatchedUncounted Demux "a packet of a PID that is not watched is not counted",
    UnwatchedKeeps Demux "a PID that is not watched keeps what it has when a packet of it comes",
    NullUnread Demux "PID 1FFF is never read",
    NoBufferUncounted Demux "a packet that finds no buffer is not counted",
    NoBufferMalformed Demux "a packet that finds no buffer counts as malformed",
    NoBufferOffers Demux "sections that lie whole in a packet that finds no buffer are offered",
    HighestFree Demux "the highest free buffer is taken",
    LeftKeeps Demux "a PID that leaves the watch keeps its buffer",
    OwnLeavingIgnored Demux "the packet's own PID keeps its buffer when it leaves",
    ReturnKept Demux "a PID that leaves and comes back in one packet keeps its buffer",
    LeavesEveryInput Demux "a PID that leaves the watch of one input gives its buffers on all back",
    AskedForEach Demux "once its own PID has left, a packet's further sections are not offered",
    FirstOfferedAlone Demux "only the first section of a packet is offered",
    AnswersReversed Demux "the answers stand in reverse order",
    OpeningEmptiesStreams Demux "an opening of the gate empties the streams",
    GatheredToldInPacket Demux "a section that was under way is told to be in the packet",
    PlaceInPayload Demux "the place of a section is counted from the packet's fifth byte",

    DigitOfTen Eit "a digit of 10 is taken",
    MinutesOf100 Eit "a minute has 100 seconds",
    DayBehindTime Eit "day and time are exchanged",
    LengthWithItsBytes Eit "a descriptor's length counts its tag and its length byte",
    OneByteLeft Eit "one byte left in a loop is passed over",
    UndefinedUnlisted Eit "an event is not listed where its time is undefined",
    HandsBackLate Eit "a descriptor may end one byte behind its loop",
    PlaceOfTheEvent Eit "the place of the event is told for that of its descriptor",
    LaterSectionsListed Eit "later sections are listed after a 32",
    WindowOffByOne Eit "the page begins one entry late",
    RunningTwoBits Eit "running_status has two bits",
    CaOfTheNextBit Eit "free_CA_mode is the next bit",
    LastSectionFirst Eit "the last section is listed first",
    NotWholeUnasked Eit "a collector that is not open answers 9",
    UnmarkedListed Eit "a row is listed whose mark is 0",
    DateWithoutK Eit "January and February are counted as months 13 and 14",
    FirstDayLeftOut Eit "1900-03-01 has no date",
    PlaceInTheCells Eit "the place is told in the cells",
    CountOfThePage Eit "only the entries of the page are counted",
    NumberFromLast Eit "the number of a section read by itself is last_section_number",
    PartOfAScheduleListed Eit "a table is listed though another of its schedule is missing",
    RowsClosedUp Eit "a row that leaves by a drop makes those behind it move up",

    UnmarkedSetListed Sets "a row is listed whose mark is 0",
    BouquetAsNetwork Sets "the networks' reader takes bouquets",
    ServiceOtherRefused Sets "the services' reader refuses 0x46",
    BrokenBeforeOther Sets "36 is answered before 35",
    LengthUnjudged Sets "section_length is not held to the bytes",
    SecondLengthUnjudged Sets "the second loop's length is not judged",
    ByteAfterPassed Sets "a byte behind the second loop is passed over",
    FirstLoopLess Sets "the last byte of the first loop is passed over",
    ServicesFromTen Sets "services begin at byte 10",
    HeadersExchanged Sets "a transport stream has 5 bytes and a service 6",
    FlagsExchanged Sets "the flags of a service are exchanged",
    NetworkIdTold Sets "network_id is told for original_network_id",
    StreamForNetwork Sets "a service's transport_stream_id is told for its original_network_id",
    ListedBeforeBroken Sets "the sections before a 36 are listed",
    LastBrokenDecides Sets "the last section that is refused decides",
    PlaceOfTheEntry Sets "the place of a transport stream or service is told for that of its descriptor",
    PlaceOfTheLoop Sets "the place of the first length is told for that of a descriptor",
    ElevenBits Sets "descriptors are counted by 11 bits",
    TablesOneByteLeft Sets "one byte left in a descriptor loop is passed over",
    ShortAtOne Sets "a network too short for its lengths is told at section_length",
    ServicesShortAtEight Sets "services too short are told at byte 8",
    ReaderFour Sets "reader 4 is the services' too",
    ClosedHasNone Sets "a set collector that is not open answers 9",
    TablesPageLate Sets "the page begins one entry late",
    TablesCountOfThePage Sets "only the entries of the page are counted",
    EqualNumbersTaken Guides "two sections of one number are a set",
    PlaceTooHigh Guides "the first differing place is one too high",
    GuidePidIgnored Guides "the PID is no part of the key of a side",
    GuideCurrentNextIgnored Guides "current_next is no part of the key of a side",
    GuideNetworkIgnored Guides "the original_network_id of an EIT is no part of the key of a side",
    GuideVersionInKey Guides "the version is part of the key of a side",
    GuidePidFirst Guides "a PID that there is not is answered before bytes that are no set",
    KeyBeforePid Guides "another key is answered before a PID that there is not",
    ListedOnNoRoom Guides "34 lists as many as there is room for",
    NoRoomUncounted Guides "34 does not tell how many differences there are",
    RoomOneTooMany Guides "the list has room for one difference more",
    HeldOfTheOther Guides "of a section that one side holds the other is told",
    HeldByBothGiven Guides "a section that both sides hold is given",
    EmptyIsSet Guides "no bytes are a set",
    BytesBehindTaken Guides "one or two bytes behind the last section are passed over",
    ShortFormTaken Guides "a section of the short form is taken",
    ElevenBytesTaken Guides "a section under 12 bytes is passed over",
    CrcJudged Guides "a section of wrong CRC makes no set",
    NumberAboveLast Guides "a section_number above last_section_number makes no set",
    KindsMixed Guides "tables of both kinds are a schedule",
    TablesFall Guides "tables that fall are a schedule",
    TableOfOneSideUnlisted Guides "a table that one side alone holds is not listed",
    GuideLastsForVersions Guides "whether last numbers agree is told for versions",
    TableWordsExchanged Guides "4 stands for last numbers that differ, 8 for versions",

    GuideNoPidCompared Guides "sides without a PID are compared",
    GuideNoPidFirst Guides "41 is answered before 10",
    GuideBadPidBeforeNone Guides "12 is answered before 41",

    AllSetPassed Sets "many at a time: a set that goes out does not end the call",
    AllRefusalPassed Sets "many at a time: a section that is refused does not end the call",
    AllAnsweringUntaken Sets "many at a time: the section that answered is not taken",
    AllCutPushed Sets "many at a time: the sections before the bad one of a list are pushed",
    AllOverlongIsTen Sets "many at a time: a list with an overlong section is answered 10",
    AllOnCurrentInput Sets "many at a time: the input that the list says is not read",

    LogKindsExchanged Logs "a short section is kind 4, a mismatch kind 3",
    LogLowByteFirst Logs "numbers of two bytes stand low byte first",
    LogPidOfTwelveBits Logs "a PID has 12 bits in a record",
    LogVersionLeftOut Logs "the version of an emitted or suppressed section is 0",
    LogChangeByRule1 Logs "the change number is that of rule 1 whatever the rule",
    LogSectionLength Logs "the length of a failure is 3 + section_length",
    LogAlwaysCurrent Logs "current_next of a set is always 1",
    LogNumberForLast Logs "a set has its section's number for the last one",
    LogSetInputZero Logs "a set has input 0",
    LogSetFirst Logs "the set's record comes before the gate's",
    LogSuppressedNotPushed Logs "a suppressed section does not reach the collector",
    LogConflictRecorded Logs "a conflict in the collector gives a set's record",
    LogRefusedRecorded Logs "a PID that there is not gives a record",
    LogPidInKey Logs "by the older definition sets are told apart by their PID",
    LogCutBeforeOverlong Logs "an overlong section whose bytes are missing is a cut list",
    LogListCutTaken Logs "a list that is cut inside a section is taken as whole",
    LogTooLittleFirst Logs "13 is answered before 42 and 10",
    LogMannerUnjudged Logs "sets with a PID, without, as before or otherwise: the fourth is taken",
    LogNoRoomAtFull Logs "44 is answered where the log fills the room",
    LogYesGoesOn Logs "yes where the log goes on",
    LogYesTooSoon Logs "yes where the log ends too soon",
    LogCutDiffers Logs "a record that is cut is another record",
    LogUnknownLate Logs "a kind that there is not is told one place late",
    LogUnknownSkipped Logs "a kind that there is not is passed over",
    LogPlaceOfTheByte Logs "the place of the first differing byte is told",
    LogUnknownPidZero Logs "a record without a PID is read as of PID 0",
    LogExtensionOfShortForm Logs "the extension is read where the section has no header",
    LogChangeOverAll Logs "the change number is the CRC over all bytes",
    LogNumberBehindVersion Logs "the section's number stands behind its version",
    LogSuppressedUnnoted Logs "a suppressed section gives no record",
    LogKindSixUnused Logs "by the older definition a set is of kind 5",
    LogSetOfEightBytes Logs "a section of 8 to 11 bytes gives the record of a set",
    LogLongestOfACell Logs "a section of 4,097 bytes is overlong",
    LogOverlongOnBadInput Logs "an overlong section is taken on an input that there is not",
    LogTooManyFirst Logs "behind the last record whatever stands there is one too many",
    LogOtherKindUnknown Logs "a kind that is not the one expected is told as a kind that there is not",
    LogLastByteUncompared Logs "the last byte of a record is not compared",
    LogWithoutAsBefore Logs "a check without a PID is made as before",
    LogWrittenAsBefore Logs "a log is written as before",
    LogNoPidFirst Logs "41 is answered before 42 and 10",
    LogTooLittleBeforeNoPid Logs "13 is answered before 41",
    LogSetWithoutPid Logs "a set without a PID has a record",
    LogKindSixUnknown Logs "a record of kind 6 is of no known kind",
}
