"""What docs/STATEMENT.md says in its own words: its parts and their contracts, what is left out and why, the notation, and where code is held to it."""

INTRODUCTION = """
# The statement

What is proved of `fkv`, from the claim down to the last definition. [README](../README.md#what-is-proved) has the headline as a sentence. This page has the
definitions that the sentence means, with their comments. Who has read them knows what is claimed, and need read no proof: the prover has checked those.

`make docs` writes this page from the sources, and `make test` refuses it if they say something else. So it has each definition that a claim rests on, but for
those that it [names as left out](#what-may-be-skipped). A part shows what the parts before it don't.
"""

HOW_TO_READ = """
Each part begins with a contract: a function of the code, with the clauses that the prover has checked. A law is a function without code. Its `ensures` say what
is proved.

Then come the definitions, module by module. Each module comes after all those that use it. So the page goes from the claim down to plain lists and numbers,
and you can end a branch where you know enough. Within a module the order is that of the source, where what is used comes first. So the claim itself is the last
definition of its module. Below a definition are links to what it uses of other modules, each name once in a module.

A comment belongs to the definition below it. Many are short, as the rule that they say goes on from one definition to the next.

Four words come back everywhere. A *life* is a run of the engine from an opening to the next crash. An *event* is one step of a session or of the keeper, a call
that begins, or the crash. An *image* is the bytes that a crash leaves on the device. A *point* of a session in a commit is the serial of its last update that the
commit keeps. [TERMS](TERMS.md) has the others.
"""

NOTATION = [
    ("`f : A → B`, then `f x = e`", "`f` has this type. One equation for each form of its arguments; the first that fits counts"),
    ("`abbrev`, `unfoldable`, `pub`", "how the prover unfolds a definition, and who may name it. They don't change what it means"),
    ("`Type 0`", "the type of types, and of statements. A function to `Type 0` says something of its arguments"),
    ("`record R (a : A) : Type 0 where`", "a record with these fields. As a statement: all fields hold, and a field that is no statement says that there is such a thing"),
    ("`data D : Type 0 where`", "an enum, with a constructor on each line"),
    ("`(x : A) → B`", "for each `x` of `A`, `B`. `A → B`: if `A`, then `B`; or a function"),
    ("`(x : A) × B`, `A × B`", "there is an `x` of `A` with `B`; both. Or a pair"),
    ("`A ⊎ B`, `⊤`, `Unit {0}`, `⊥`, `¬ A`", "the one or the other; what always holds, in two spellings; what never does; not `A`, which is `A → ⊥`"),
    ("`{A : Type 0}`", "an argument that is clear from the others, and isn't written"),
    ("`a ≡ b`, `a ≢ b`, `a ≤ b`, `a < b`, `A ↔ B`", "statements"),
    ("`a == b`, `a && b`, `a || b`, `nat_le a b`, `if c then a else b`", "computed: `true` or `false`, and a choice by them"),
    ("`[]`, `x ∷ rest`, `a ++ b`", "lists. **Events, calls of the device, effects and traces have the newest first**; a history has the oldest first"),
    ("`record { f = e; }`, `record r { f = e }`", "a record by its fields; `r` with this field changed"),
    ("`λ x. e`, `let x = e in`", "a function without a name; a name for a part"),
    ("`module _ (a : A) where`", "what is indented below takes these arguments too"),
    ("`ℕ`", "the numbers from 0 on, without an end. A byte, a word and a key are such numbers"),
    ("`a + b`, `a - b`, `a * b`, `a / b`, `a % b`, `a ^ b`", "on `ℕ`: `a - b` is 0 if `b` is greater, and `a / b` has no fraction"),
    ("`it.0`, `it.items`", "the number in a Rust struct of one field; the list of a Rust `Vec`, or of an `ArrayVec`, which has a greatest length"),
    ("`call.Op`, `one.Tail`", "a variant of a Rust enum, by the name under which a module imports them"),
    ("`x.old`, `x.new`, `x.now`, `result`", "in a contract: an argument before the call, after it, a shared one, and what is returned"),
    ("`said.X`", "in a contract: the definition `X`"),
    ("`⟦<T as Trait>⟧.x`, `D.x`", "in a contract: what the implementation of a trait says under this name. `Ghosts D`: all that `D` says as a `Device`"),
]

WORDS = {
    "Bool true false": "the truth values",
    "not cond": "negation; `cond b x y` is `x` if `b` is true, else `y`",
    "nat_eq nat_le nat_lt": "the comparisons of numbers that compute",
    "zero suc min max": "0; the next number; the less and the greater of two",
    "bit_and bit_or": "the number whose binary digits are 1 where both numbers have one; and where either has",
    "List length map filter replicate": "lists; how long one is; a function of each element; those for which a test is true; so many times the same",
    "count_by": "for how many elements a test is true",
    "range_with_len": "`range_with_len a n`: the list of the `n` numbers from `a` on",
    "slice_get slice_set": "the element at an index, if there is one; the list with another one there",
    "slice_index slice_index_or": "the element at an index; past the end 0, or what is given",
    "Option Some None": "a value or none",
    "FinMap nat_cmp insert remove get": "a finite map, of keys by their order; the map with a value for a key, and without one; the value of a key",
    "empty entries from_entries": "the map without keys; a map's pairs in the order of its keys; the map of such pairs",
    "is_some option_map take flat_map": "whether there is a value; a function of the value, if there is one; the first elements; the lists of all elements, one after another",
    "Result Ok Err": "what a call returns, or its fault",
    "IsErr OnErr IfErr": "that it is a fault; if it is a fault, so much holds; if it is a fault, so much holds of that",
    "IsTrue": "that a truth value is `true`",
    "codes decimal": "the bytes of a text in quotes; those of a number in decimal digits",
    "Appends": "a writer's known bytes go on by these, as far as it says what it holds",
    "TableId State Me": "which table of shared words it is; its words, its slots and the view of each seat; one seat's view, with the slots that it has in hand",
    "get_elem? some none": "the element at an index, if there is one, as `State` says it",
    "Snapshot": "a ghost value that is fixed as a table is made",
}

# Definitions of which the fields are shown, but not what these are.
ALONE = ["fkv_session/Sessions SessionState", "fkv_keeper/Keeping KeeperState", "fkv_flush/GuardWorld Work", "fkv_epoch/EpochWorld EpochMachine"]
# Likewise for types of the Rust code.
TYPES_ALONE = {"Sitting", "Keeping", "Serving", "Committing", "Gating"}

# What is left out: by groups, each with its reason. A definition is named by its module below crates, and its name.
LEFT_OUT = {
    "What the machines do": (
        "These tables say which word a machine asks for next, and how it goes on with the reply. Each step of the engine is proved to go by them "
        "([below](@Where code is held to it)). The claims are of every list of such steps, whatever the tables say.",
        [
            "fkv_session/Sessions session_begun",
            "fkv_session/Sessions session_ask",
            "fkv_session/Sessions session_next",
            "fkv_session/Sessions session_given",
            "fkv_keeper/Keeping commit_asked",
            "fkv_keeper/Keeping turn_asked",
            "fkv_keeper/Keeping keeper_ask",
            "fkv_keeper/Keeping keeper_next",
            "fkv_keeper/Keeping keeper_given",
            "fkv_keeper/Keeping keeper_called",
            "fkv_keeper/KeeperAsks keeper_calls",
            "fkv_keeper/KeeperAsks keeper_due",
            "fkv_keeper/KeeperAsks keeper_asks_left",
        ],
    ),
    "Which store an image holds": (
        "`recover` is proved to answer such a store, or to name such a fault. So whatever these say, they are what recovery answers. `IsNewestOf` is its first stage: the "
        "newest of the two slots. `opening_map` is the map that `content` answers.",
        [
            "fkv_opening/Opened IsStoreOf",
            "fkv_opening/Faults IsFaultOf",
            "fkv_newest/Newest IsNewestOf",
            "law_opening/Log/Maps opening_map",
            "fkv_pairs/Pairs ArePairs",
            "fkv_pairs/Pairs log_of_store",
        ],
    ),
    "How an opened store is laid out in words": (
        "`World::open` is proved to make just such words, and such a keeper.",
        ["fkv_core/OpeningWords AreWordsOfOpened", "fkv_keeper/NewKeepers IsNewKeeper"],
    ),
    "What a commit writes beside its number and its points": (
        "Its kind, where its log begins and ends, its triples, and the ranges that are lost. No clause of the headline reads them; its proof does.",
        ["law_commit/CommitParts CommitParts", "law_commit/CommitParts parts_opening", "law_commit/CommitParts parts_opened"],
    ),
    "How the guard moves": (
        "[Part 2](@2. No step writes a flushed record) says what the guard is, and what its reader loses without these.",
        [
            "fkv_flush/GuardWorld guard_run",
            "law_world/Guarded/GuardEvents mapped",
            "law_world/Guarded/Shows IsSeated",
            "law_world/Guarded/Shows IsKept",
            "law_world/Guarded/Shows ArePermitted",
            "fkv_flush/proofs/GuardSound IsSound",
        ],
    ),
    "That a session or the keeper is ready": (
        "`open` gives these of each session and of the keeper. Each call gives back what it asks for. So a caller never has to show one by other means.",
        [
            "fkv_table/Calls IsReady",
            "fkv_table/Keeps IsKeeperReady",
            "fkv_table/Keeps IsKeeperAtWork",
            "fkv_table/Meets AreTwoReady",
            "fkv_table/Meets StaysReady",
        ],
    ),
    "How the program reads words and plays lines": (
        "They tie a report to the script. `fkv_cli` `run` is proved to read and to play so ([below](@Where code is held to it)). [PROGRAM](PROGRAM.md) has the lines and the words.",
        [
            "fkv_lines/Script script_of",
            "fkv_options/Options file_in",
            "fkv_options/Options torn_in",
            "fkv_options/Options check_in",
            "fkv_options/Options seed_in",
            "fkv_playing/Players EngineStep",
            "fkv_playing/Groups IsGroup",
            "fkv_playing/Finishes IsFinish",
            "law_program/PlayedCalls/Waiting SeatsKeepKeys",
            "fkv_texts/Refusals refusal_text",
        ],
    ),
}

# What the page speaks of, and the functions whose clauses hold the code to it: crate, file, name, clauses.
TIES = [
    (
        "A step of the engine is an event: the world goes on as [`life_goes`](@fkv_world/World life_goes) says, and the device as a life's calls do",
        ("fkv_core", "worlds.rt", "step", "step"),
        ("fkv_core", "worlds.rt", "advance", "step"),
        ("law_opening", "lives.rt", "law_device_opens", "steps"),
    ),
    ("A store that is opened begins with [`IsOpeningWorld`](@fkv_core/Openings IsOpeningWorld)", ("fkv_core", "openings.rt", "open", "world opened")),
    ("Recovery answers a store of the image, or a fault of it", ("fkv_opening", "recovery.rt", "recover", "ok exact err")),
    ("The map with which a life begins is the one that `content` answers", ("fkv_pairs", "contents.rt", "content", "ok"), ("law_opening", "log.rt", "law_log_opened", "pairs")),
    (
        "What recovery and creation leave begins a life",
        ("law_answers", "beginnings.rt", "law_opening_begins_life", "recovered created"),
        ("fkv_creating", "opening.rt", "create_opened", "ok new synced"),
    ),
    ("Such lives exist", ("law_order", "new_lives.rt", "law_life_exists", "opened created worked committed")),
    ("What a call of the device does to its bytes, and to what a crash may leave", ("fkv_disk", "devices.rt", "read", "bytes"), ("fkv_disk", "devices.rt", "write", "seen crash"), ("fkv_disk", "devices.rt", "sync", "durable")),
    ("The serials of a session are those of its answers", ("law_world", "sessions.rt", "law_world_sessions", "serials accounts")),
    ("A call at a table is one in the list of events, and its answer is the one that it has there", ("fkv_table", "sessions.rt", "run", "called answer"), ("fkv_table", "sessions.rt", "call", "called told")),
    ("The program writes what its script gives by the engine's steps", ("fkv_cli", "programs.rt", "run", "whole part")),
]

PARTS = [
    {
        "title": "The headline",
        "text": """
README's sentence is the record [`PrefixLaw`](@law_order/Prefix/Law PrefixLaw). Phrase by phrase:

| README | definition |
|---|---|
| over every list of steps of sessions, flusher, device and committer, with a crash anywhere | [`InEachLife`](@law_order/OneHistory/EachLife InEachLife), [`Event`](@fkv_world/World Event) |
| the store recovered from any image left | [`RecoversPrefix`](@law_order/Prefix/Law RecoversPrefix), [`MayLeave`](@fkv_disk/Calls MayLeave) |
| is the newest finished commit's | [`IsCurrent`](@law_order/Prefix/Law IsCurrent), [`TellsFinished`](@law_order/Prefix/Law TellsFinished) |
| precisely each session's updates up to its point, none later | [`IsKeptOf`](@law_order/Prefix/Law IsKeptOf): `whole`, by [`IsWhole`](@fkv_map/History IsWhole) |
| replayed on a map | [`IsKeptOf`](@law_order/Prefix/Law IsKeptOf): `pairs`, by [`content`](@fkv_map/History content) |
| in one legal order of effect with the answers given | [`HasLegalHistory`](@law_order/Rules/Ordered HasLegalHistory), [`OrdersItsCalls`](@law_order/Rules/Ordered OrdersItsCalls) |
| no step writes a flushed record or a frame that an epoch protects | [`IsGuarded`](@law_order/Rules/Ordered IsGuarded), in part 2 |

Three things of the engine's state that no caller sees are read here. Which commits have begun is read from the keeper's state ([`begun_by`](@law_commit/BegunCommits begun_by));
the clause `told` ties those that are finished to the answers of turns. Which serials a session has given is read from its state; `law_world_sessions` ties them to its
answers. That a commit is sealed is read from the success of the keeper's sync. The history is a witness: callers see calls and answers, and `ordered`, `fresh` and `in_time` tie
these to it.
""",
        "functions": [("law_order", "recovered/prefix.rt", "law_prefix")],
        "leaves": ["law_order/Rules/Ordered IsGuarded", "law_order/Rules/Ordered RunsActionsOnce"],
    },
    {
        "title": "No step writes a flushed record",
        "text": """
The clauses `guarded` and `once` of [`PrefixLaw`](@law_order/Prefix/Law PrefixLaw), the end of README's sentence.

They speak of a small world beside a life, the *guard*. It has the words, the drain slots, and an actor for each session and for the keeper, which knows what that one has
seen. [`guard_so_far`](@law_order/Rules/Ordered guard_so_far) is what it has come to by the events so far.

Its words, places and sizes are the engine's at each moment ([`Shows`](@law_world/Guarded/Shows Shows)). So `writes`, `changes`, `order`, `rises` and `paged` are of the
engine's own words. The clauses `limit` and `covered`, and `once`, also speak of what the guard's actors have seen. That these are the engine's sessions and keeper is said by
`IsSeated` and `IsKept`, and what an event is to the guard by `mapped`. With these, a reader has some 2,000 lines more.
""",
        "functions": [],
        "roots": ["law_order/Rules/Ordered IsGuarded", "law_order/Rules/Ordered RunsActionsOnce"],
    },
    {
        "title": "Calls of threads",
        "text": """
What the library's calls are told, whichever threads make them. The calls at a table are in one list of events, and each session's *pass* has seen a beginning of it. A
contract says of a call how the list has grown, and what the laws say of that list.

That a commit's entry in the list is of the kind that was asked for is the clause `kinds`. A turn asks for an honest device.
""",
        "functions": [
            ("law_threads", "lib.rt", "law_threads"),
            ("fkv_threads", "opening.rt", "open"),
            ("fkv_threads", "seated.rt", "call"),
            ("fkv_threads", "many.rt", "ops"),
            ("fkv_threads", "keeper_seats.rt", "turn"),
            ("fkv_threads", "passes.rt", "join"),
            ("fkv_threads", "seated.rt", "meet"),
            ("fkv_threads", "passes.rt", "law_of_meetings"),
        ],
        "also": [
            ("fkv_threads", "seated.rt", "op"),
            ("fkv_threads", "keeper_seats.rt", "ask_commit"),
            ("fkv_threads", "keeper_seats.rt", "drive"),
            ("fkv_threads", "keeper_seats.rt", "step"),
            ("fkv_threads", "keeper_seats.rt", "told"),
        ],
    },
    {
        "title": "Crash reports of the program",
        "text": """
What `run` promises of the reports that it prints after a crash, for a store in memory: its clauses `kept` and `all_lives`. A report is of the store that is recovered
then. It has what one commit keeps of the life before, and so of all lives of the run. A script has at most 65,536 lines, so few calls begin in its lives.
""",
        "functions": [("fkv", "programs.rt", "run", ["kept", "all_lives"])],
    },
]
