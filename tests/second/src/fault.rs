// The ways in which the reference store can be wrong, each with a name: one for every mistake that the checks must be seen to find.

macro_rules! faults {
    ($($(#[$what:meta])* $fault:ident),* $(,)?) => {
        /// A way to be wrong.
        #[derive(Clone, Copy, Debug, PartialEq, Eq)]
        pub enum Fault { $($(#[$what])* $fault),* }

        impl Fault {
            pub const ALL: &'static [Fault] = &[$(Fault::$fault),*];
        }
    };
}

faults! {
    FlushLeavesMessages,
    FlushRaisesNode,
    FlushLiftsMessages,
    SettleLeavesMessages,
    TidyDoesNothing,
    TidySpreads,
    HealDoesNothing,
    HealAddsMessage,
    HealPacks,
    HealPutsLevelBetween,
    NarrowsNumbers,
    LiveOffByOne,
    GetIgnoresClears,
    GetWipesBuffer,
    NextMayRepeat,
    SameComparesValues,
    CheckBelievesNodeZero,
    CheckCountsPairs,
    CheckTellsWhenRefused,
    ClearTakesNamesakes,
    MoveKeepsDestination,
    MoveKeepsSource,
    MoveOntoItselfPacks,
    MoveForgetsComponents,
    WorkLeftDirty,
    WorkWipedWhole,
    RefusalWipesWork,
    RefusalTouchesStore,
    ReadTouchesStore,
    PutRefusesWhenFull,
    PutTakesEmptyPath,
    DropTakesEmptyPath,
    MoveTakesEmptyPath,
    GetTakesEmptyPath,
    ClearRefusesEmptyPath,
    ClearOfAllDropsOne,
    ClearOfAllDropsNone,
    NextRefusesEmptyPath,
    NextOfAllFindsNone,
    NextOfAllFindsFirstAlone,
    /// It takes a value of one byte too many.
    PutTakesLonger,
    /// It refuses a value of the greatest length.
    PutRefusesLongest,
    /// It refuses a value that was too long before values became longer.
    PutHasOldLimit,
    /// It takes the value and keeps as many bytes of it as a value could have before.
    PutCutsValue,
    /// It takes a buffer that is a byte too short.
    GetTakesShorter,
    /// It refuses a buffer that is just long enough.
    GetRefusesJustEnough,
    /// It takes a buffer that was long enough before.
    GetHasOldBuffer,
    /// It gives the right length, and as many bytes as a value could have before.
    GetCutsValue,
    /// A pair with a value of one byte too many is sound to it.
    PairMayBeLonger,
    /// A waiting put of such a value is.
    WaitingMayBeLonger,
    /// A pair with a value of the greatest length is unsound to it.
    PairMayNotBeLongest,
    /// A waiting put of such a value is.
    WaitingMayNotBeLongest,
    /// A pair with a value that was too long before is unsound to it.
    PairHasOldLimit,
    /// A waiting put of such a value is.
    WaitingHasOldLimit,
    /// A move, a flush, a heal, a settle or a tidy keeps as many bytes of each value as it could have before.
    MoveCutsValues,
    FlushCutsValues,
    HealCutsValues,
    SettleCutsValues,
    TidyCutsValues,
    RefusesAll,
}
