/* The names of faults, and what they say to people. */
#include "fkv.h"

struct words {
    const char *name;
    const char *text;
};

static const struct words WORDS[] = {
    [FKV_DONE] = {"Done", "Done."},
    [FKV_BAD_SHAPE] = {"BadShape", "A size of the shape is outside its limits."},
    [FKV_VALUE_RESERVED] = {"ValueReserved", "2^64 - 1 is no value."},
    [FKV_PENDING_FULL] = {"PendingFull", "64 requests of the session are pending: settle it, and call again."},
    [FKV_INDEX_FULL] = {"IndexFull", "The index has no room for another key: renew the store with more buckets."},
    [FKV_LOG_FULL] = {"LogFull", "The log has no room for another record: renew the store."},
    [FKV_VERSIONS_SPENT] = {"VersionsSpent", "The store has taken its last commit: renew it."},
    [FKV_SERIALS_SPENT] = {"SerialsSpent", "The session has given its last serial: use another session."},
    [FKV_EPOCHS_SPENT] = {"EpochsSpent", "The store has made its last turn: open it anew."},
    [FKV_DRAIN_FULL] = {"DrainFull", "The keeper has no drain slot for a commit: ask again after a turn."},
    [FKV_COMMIT_RUNNING] = {"CommitRunning", "A commit runs, or a turn: ask again when it is over."},
    [FKV_PENDING_LEFT] = {"PendingLeft", "The session has pending requests: settle it first."},
    [FKV_ASLEEP] = {"Asleep", "The session sleeps: wake it first."},
    [FKV_BROKEN] = {"Broken", "A call of the file has failed before, and the store commits no more: open it anew."},
    [FKV_DEVICE] = {"Device", "The system has refused a call of the file."},
    [FKV_NOT_A_STORE] = {"NotAStore", "The file is no store's."},
    [FKV_DAMAGED] = {"Damaged", "The file is a store's, and damaged."},
    [FKV_SCRIPT] = {"Script", "The script can't be read."},
    [FKV_MEMORY] = {"Memory", "The system has refused memory."},
    [FKV_NO_SESSION] = {"NoSession", "The store has no such session, or none that is free."},
    [FKV_AWAKE] = {"Awake", "The session is awake already."},
    [FKV_LOST_FULL] = {"LostFull", "A log commit can't name all lost records, or is too far behind the last full one: make a full commit."},
    [FKV_HANDLE_OUT] = {"HandleOut", "A session or a handle is out still, or a hook would end the thread that calls it."},
    [FKV_HANDLE_TAKEN] = {"HandleTaken", "The session or the keeper is taken already."},
    [FKV_ROOM_SMALL] = {"RoomSmall", "The caller's room is too small."},
    [FKV_NO_KEEPER] = {"NoKeeper", "No keeper's thread runs: start it first."},
    [FKV_NO_MERGE] = {"NoMerge", "No merge has this number."},
};

enum { COUNT = sizeof WORDS / sizeof WORDS[0] };

static const struct words *words_of(int32_t result) {
    static const struct words unknown = {"Unknown", "Unknown fault."};
    if (result <= -COUNT || result >= COUNT) return &unknown;
    return &WORDS[result < 0 ? -result : result];
}

const char *fkv_name_of(int32_t result) { return words_of(result)->name; }

const char *fkv_text_of(int32_t result) { return words_of(result)->text; }
