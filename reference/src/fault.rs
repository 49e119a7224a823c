//! Seeded faults: small deviations of the model that requests or single calls can show.

/// Where a fault shows.
#[derive(Clone, Copy, Debug, PartialEq, Eq)]
pub enum Shown {
    /// In the output of scripts only.
    Scripts,
    /// In single calls only.
    Calls,
    /// In both.
    Both,
}

/// Declares the faults, their names, where they show and what each of them does.
macro_rules! faults {
    ($($fault:ident $name:literal $shown:ident $what:literal,)*) => {
        #[derive(Clone, Copy, Debug, PartialEq, Eq)]
        pub enum Fault {
            $(#[doc = $what] $fault,)*
        }

        impl Fault {
            pub const ALL: &'static [Fault] = &[$(Fault::$fault,)*];

            pub fn name(self) -> &'static str {
                match self {
                    $(Fault::$fault => $name,)*
                }
            }

            pub fn shown(self) -> Shown {
                match self {
                    $(Fault::$fault => Shown::$shown,)*
                }
            }
        }
    };
}

faults! {
    ClassLowDown "class_low_down" Both "2,047 is partial.",
    ClassLowUp "class_low_up" Both "2,048 is allocated.",
    ClassHighDown "class_high_down" Both "14,336 is free.",
    ClassHighUp "class_high_up" Both "14,337 is partial.",
    ClassByShare "class_by_share" Both "Class edges are shares of the tree's own capacity.",
    NearMissing "near_missing" Both "No near pass.",
    NearKeepsOwn "near_keeps_own" Both "The near pass does not skip its own tree.",
    NearTakesAllocated "near_takes_allocated" Both "The near pass takes trees of every class.",
    FreeBeforePartial "free_before_partial" Both "The free pass precedes the partial pass.",
    AnyOnlyAllocated "any_only_allocated" Both "The last pass takes allocated trees only.",
    PlaceSkipped "place_skipped" Both "A failed search skips the place after it.",
    PlaceTwice "place_twice" Both "The first place of the last pass is tried twice.",
    NoRoomEarly "no_room_early" Both "The last place is not tried.",
    StealDescending "steal_descending" Both "Other CPUs are tried from the last down.",
    StealForgetsTree "steal_forgets_tree" Both "A steal leaves the tree's count where it is.",
    StealReturnKeepsReserved "steal_return_keeps_reserved" Both "A steal that came short leaves r set.",
    HighestBit "highest_bit" Both "The highest zero bit, or fitting run, is taken.",
    SecondRun "second_run" Both "The second lowest fitting run is taken, if there are two.",
    RunUnaligned "run_unaligned" Both "The lowest clear bits make a run, aligned or not.",
    RunAcross "run_across" Both "A run may lie half in a word and half in the next one.",
    ChildClaimOne "child_claim_one" Both "A run lowers its child's count by one.",
    TreeClaimOne "tree_claim_one" Both "A run lowers the CPU's entry by one.",
    GiveBackOne "give_back_one" Both "A child without a fitting run gets one frame back.",
    StartNotKept "start_not_kept" Both "The last step does not write the start child.",
    SearchStopsAtEnd "search_stops_at_end" Both "The search does not go round past the last child.",
    ClaimStrict "claim_strict" Both "A claim wants more than s.",
    FitStrict "fit_strict" Both "A pass wants more than s.",
    StealStrict "steal_strict" Both "A steal wants more than s.",
    SyncMissing "sync_missing" Both "A short own entry is released without the tree's count.",
    SyncNoLook "sync_no_look" Both "A short own entry is not looked at again but released.",
    ReleaseKeepsReserved "release_keeps_reserved" Both "A release leaves r set.",
    FailedClaimLost "failed_claim_lost" Both "A failed search does not give its claim back.",
    PutToTree "put_to_tree" Both "A put never gives its count to the own entry.",
    PutClearsReserved "put_clears_reserved" Both "A put's last step clears r.",
    PutSizeOne "put_size_one" Both "A put of any order gives one frame to the entry or tree.",
    RaiseOne "raise_one" Both "The put of a run raises its child's count by one.",
    BitLeft "bit_left" Both "The put of a run leaves its last bit set.",
    NotTakenByAll "not_taken_by_all" Both "A run is not taken only when all its bits are clear.",
    OrdersBetween "orders_between" Both "Orders 7 and 8 are let in, as order 6.",
    RunMisaligned "run_misaligned" Both "Only huge frames are held to their alignment at a put.",
    Swap73 "swap_7_3" Both "Bad order precedes bad CPU.",
    Swap74 "swap_7_4" Both "Bad frame precedes bad CPU.",
    Swap75 "swap_7_5" Both "Misaligned precedes bad CPU.",
    Swap34 "swap_3_4" Both "Bad frame precedes bad order.",
    Swap45 "swap_4_5" Both "Misaligned precedes bad frame.",
    CpuEdge "cpu_edge" Both "The CPU just past the table is let in.",
    FrameEdge "frame_edge" Both "The frame just past the zone is let in.",
    HugeFromBits "huge_from_bits" Both "A huge frame that holds no taken bit may be put.",
    PutFrameZero "put_frame_zero" Both "A put answers frame 0.",
    NoRoomStepTwice "no_room_step_twice" Scripts "The step that answers No room counts twice.",
    RefusedStepFree "refused_step_free" Scripts "A step refused with Not taken does not count.",
    ReleaseStepTwice "release_step_twice" Scripts "The release's second step counts twice.",
    BitBeforeCount "bit_before_count" Calls "The bit is set before the child's count is lowered, which the last step does.",
    ClaimToEntry "claim_to_entry" Calls "A failed claim returns to the CPU's entry if that holds the tree.",
    HandClearsReserved "hand_clears_reserved" Calls "Rule 1's return of the hand clears r.",
    OpenTrustsTrees "open_trusts_trees" Calls "Open keeps the tree counts that it finds.",
    CutPutLost "cut_put_lost" Calls "Recovery keeps the smaller of a child's count and its zero bits.",
    OpenTrustsChildren "open_trusts_children" Calls "Recovery keeps the counts of the children.",
    OpenKeepsReserved "open_keeps_reserved" Calls "Open leaves r as it finds it.",
    CleanRecovers "clean_recovers" Calls "A clean zone is recovered too.",
    OpenOverBits "open_over_bits" Calls "Open lets a child with a set stand over set bits.",
    CloseIgnoresCpus "close_ignores_cpus" Calls "Close does not add the CPUs' counts.",
    CloseIgnoresBits "close_ignores_bits" Calls "Close does not count the zero bits.",
    Swap1213 "swap_12_13" Calls "Not settled precedes damaged at close.",
    Swap910 "swap_9_10" Calls "Closed precedes not a zone at a step.",
    Swap108 "swap_10_8" Calls "Bad buffers precede closed at a step.",
    Swap811 "swap_8_11" Calls "A bad record precedes bad buffers at a step.",
    Swap1112 "swap_11_12" Calls "A damaged own entry precedes a bad record at a step.",
    Swap126 "swap_12_6" Calls "Not taken precedes damaged at a step.",
    Swap148 "swap_14_8" Calls "A header slice of a wrong length precedes bad size.",
    HeaderLengthLate "header_length_late" Calls "A malformed header precedes its slice's length.",
    ChildLetThrough "child_let_through" Calls "A child's zero bits are not looked at.",
    TreeLetThrough "tree_let_through" Calls "A tree's count above the capacity is let through.",
    CpuLetThrough "cpu_let_through" Calls "A CPU entry's zero bits are not looked at.",
    AbsentLetThrough "absent_let_through" Calls "Every CPU entry that is not present counts as absent.",
    StartLetThrough "start_let_through" Calls "A CPU entry's start child need not exist.",
    HeaderLetThrough "header_let_through" Calls "The header's zero bits are not looked at.",
    StealFromOwn "steal_from_own" Calls "The steal does not leave the own CPU out.",
    StealUnchecked "steal_unchecked" Calls "A stolen sum past the capacity is kept in hand.",
    GiveBackMissing "give_back_missing" Both "Eight words without a fitting run do not give the count back.",
    FillOther "fill_other" Calls "The hand goes to the CPU's entry whatever tree that holds.",
    ClaimOther "claim_other" Calls "The second look claims on whatever tree the entry holds.",
    ReleaseOther "release_other" Calls "A release makes an entry of another tree absent.",
    StartOther "start_other" Calls "The last step writes the start child whatever tree the entry holds.",
    WriteUnread "write_unread" Calls "The own entry is written without being read.",
    ShortHandRange "short_hand_range" Calls "A hand below s is a bad record at the writing of the own entry.",
    RefusedStores "refused_stores" Calls "A step refused for the child to be stored stores it.",
    HandRange "hand_range" Calls "A record's hand is not held to the capacity.",
    FrameRange "frame_range" Calls "A last step's frame is not held to the zone.",
    StartRange "start_range" Calls "A search may start from the child just past the last.",
    WordRange "word_range" Calls "A search may stand at the word just past the last.",
}

impl Fault {
    /// The fault of a name.
    pub fn named(name: &str) -> Option<Fault> {
        Fault::ALL
            .iter()
            .copied()
            .find(|fault| fault.name() == name)
    }

    /// The faults that scripts show.
    pub fn in_scripts() -> impl Iterator<Item = Fault> {
        Fault::ALL
            .iter()
            .copied()
            .filter(|fault| fault.shown() != Shown::Calls)
    }

    /// The faults that single calls show.
    pub fn in_calls() -> impl Iterator<Item = Fault> {
        Fault::ALL
            .iter()
            .copied()
            .filter(|fault| fault.shown() != Shown::Scripts)
    }
}
