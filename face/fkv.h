/*
 * fkv.h: a key-value store of 64-bit words, whose engine is proved, for C and C++.
 *
 * Link libfkv.a, which holds this library and fkv_posix.h's part, with -pthread; or the shared library, libfkv.so.0. docs/EMBED.md shows
 * whole programs.
 *
 * Two layers. This header has the store itself: it touches no file, starts no thread, takes no lock, never waits, and keeps
 * nothing in globals. fkv_posix.h puts it into a file and runs its keeper in a thread. Most programs want that one, and of this
 * header only the calls of a session.
 *
 * Handles. A handle is one word that the caller keeps. A store has one handle for itself, one for each of its 1 to 32 sessions,
 * and one for its keeper:
 *
 *     fkv_store     opening, handing out, closing
 *     fkv_session   reads and updates. Refresh it every 64 calls or so, and poll it while requests of it are pending
 *     fkv_keeper    turns, in a loop: they write the log, read back what lies on the file alone, and carry commits on
 *
 * Without fkv_posix.h a program runs the keeper itself, in an event loop or over io_uring. fkv_image gives the bytes of a new store,
 * and fkv_open takes all bytes of a file. fkv_turn says which read, write or sync of the file comes next, and fkv_io_done takes how that
 * has gone. fkv_posix.h's fkv_turn_file is such a loop, over a descriptor.
 *
 * Threads. One call at a time on one handle. Different handles of one store may be used by different threads at the same time.
 * A handle may move to another thread if something orders the two threads' calls: a mutex, the start or the join of a thread, an
 * atomic. No call from a signal handler, and none in a child that was forked from a process with an open store.
 *
 * Results. A call gives 0 or more for an answer, and for a refusal minus the number of its fault: `-FKV_ASLEEP`. A call that is
 * refused has changed nothing, unless its comment says so; what it would have written through a pointer is then not to be read.
 *
 * Pointers. None that the library follows is NULL, unless the call's comment allows it. That holds of a room of 0 too, and of a length
 * of 0.
 *
 * Values are 0 to 2^64 - 2; 2^64 - 1 stands for 'no value' (FKV_ABSENT). Keys are any words.
 */
#ifndef FKV_H
#define FKV_H

#include <stddef.h>
#include <stdint.h>
#include <stdlib.h>

#ifdef __cplusplus
extern "C" {
#endif

/* This header's version. While the first number is 0, a new second number may change calls and files. */
#define FKV_VERSION_MAJOR 0
#define FKV_VERSION_MINOR 1
#define FKV_VERSION_PATCH 0

/*
 * The library's version: its three numbers, and whether its engine was proved as it was built. "0.1.0 proved", or "0.1.0 without
 * proof, built from commit 4b7e9713". If the library is shared, its numbers may be later than those of this header. Never NULL.
 */
const char *fkv_version(void);

/*
 * The formats of files that this library opens, with a blank between two: "FKVSTOR1 FKVSTOR2". A store's file begins with the name of
 * its format, 8 bytes. The first is of specified stores, and the second of living ones, which alone this library makes. Of each, all
 * kinds of commits' slots are read. Any other file is FKV_NOT_A_STORE. Never NULL.
 */
const char *fkv_formats(void);

#define FKV_ABSENT UINT64_MAX

/* Bytes of a new store's file. */
#define FKV_IMAGE_SIZE 1536

/* Sessions of a store, at most: a room of so many points is never too small. */
#define FKV_MOST_SESSIONS 32

/* Requests of one session that are pending, at most: a poll wants a room of so many. */
#define FKV_MOST_PENDING 64

/* Bytes of a read that a turn posts. */
#define FKV_READ_SIZE 24

/* The most that a read of the file has: that of a sweep. */
#define FKV_MOST_READ 768

/* Commits that a specified store takes in all its life, and a living one. */
#define FKV_MOST_COMMITS 8190
#define FKV_MOST_LIVING_COMMITS UINT64_C(35184372088830)

/* A handle is the word `at`. The call that makes the handle writes the word. If the call is refused, then the word stays as it was. */
typedef struct { void *at; } fkv_store;
typedef struct { void *at; } fkv_session;
typedef struct { void *at; } fkv_keeper;

/*
 * How large a store is. This library makes living stores. It opens specified ones too, of which some sizes have lower limits.
 *
 * Calls of a living store leave room to its polls, so that no request which is accepted waits for room that never comes: of S sessions 65 * S
 * overflow buckets, and 65 * S * S records at the log's end. What would want more is refused at its call (FKV_INDEX_FULL, FKV_LOG_FULL), and
 * commits go on. So a log no longer than that takes no record by calls. A store with no more overflow buckets than that links none by calls;
 * a key that finds a slot in its own bucket at once needs none.
 *
 * After a commit each key's first update appends a record. One page past the last record's is opened ahead, and no more. If a page
 * holds as many records as keys are updated during a commit, an update seldom waits for room (FKV_NO_ROOM).
 */
typedef struct {
    uint64_t bucket_bits;   /* the index has 2^bucket_bits buckets of seven entries: 0 to 24, of a specified store to 10 */
    uint64_t page;          /* records in a page: a power of two from 4 to 65,536, of a specified store to 1,024 */
    uint64_t frames;        /* pages in memory: a power of two from 2 to 4,096, of a specified store to 64 */
    uint64_t mutable_pages; /* pages whose records are updated in place: 1 to frames - 1 */
    uint64_t sessions;      /* 1 to 32; of fkv_posix.h, which adds one to a file, to 31 */
    uint64_t overflow;      /* buckets that full ones overflow to: 0 to 2^24, of a specified store to 1,024. See fkv_image and fkv_shape_of */
    uint64_t disk_pages;    /* pages that the log may have in the file: 1 to 2^30, of a specified store to 65,536. 0 of fkv_posix.h: 2^30 */
} fkv_shape;

/* What an opening found. */
typedef struct {
    uint64_t number;     /* the last finished commit, 0 in a new store */
    uint64_t damage;     /* after -FKV_DAMAGED: 1 manifest slot, 2 triple, 3 record, 4 link of a record, 5 full bucket */
    uint64_t damaged_at; /* and which: a slot's, triple's or bucket's number, or a record's address */
    uint64_t entries;    /* after 0: entries of the index that are taken. Keys share one if they have the same bucket and tag, as few do */
} fkv_opened;

/* What a renewal found and wrote. */
typedef struct {
    uint64_t size;       /* bytes of the new store's file, after a 0 and after -FKV_ROOM_SMALL */
    uint64_t damage;     /* after -FKV_DAMAGED: the part of the old store, as of fkv_opened */
    uint64_t damaged_at; /* and which */
} fkv_renewed;

/* The result of an update. */
typedef struct {
    uint64_t serial; /* the session's updates count from 1, in all of the store's life; a commit keeps them up to one of these */
    uint64_t value;  /* what an add, a max or a merge that is done has left; of a keep FKV_ABSENT where the key has no value */
    uint64_t reason; /* why an update is pending: FKV_FUZZY .. */
} fkv_update;

/* One read of many: what fkv_get returns and writes. */
typedef struct {
    uint64_t value; /* what the read has found, or its ticket */
    int32_t result; /* FKV_FOUND, FKV_NONE, FKV_PENDING or a refusal */
} fkv_each_read;

/* One update of many: what fkv_upsert, fkv_add or fkv_merge answers and tells. */
typedef struct {
    uint64_t serial; /* as of fkv_update, and so are the next two */
    uint64_t value;
    uint64_t reason;
    int32_t result;  /* FKV_DONE, FKV_PENDING or a refusal */
} fkv_each_update;

/* A request that was pending and is finished. */
typedef struct {
    uint64_t kind;  /* FKV_UPDATED, FKV_READ_FOUND or FKV_READ_NONE */
    uint64_t name;  /* an update's serial, or a read's ticket */
    uint64_t value; /* of an update as of fkv_update; or what a read has found */
} fkv_finished;

/* How far the store has come, as a session sees it. */
typedef struct {
    uint64_t phase;   /* FKV_REST .. */
    uint64_t version; /* the commit in hand, or the one that comes next */
} fkv_seen;

/*
 * How far the log has come. Records have the addresses 1, 2, 3 .., in the order in which they were made. No offset is below the one
 * before it here, and none ever falls.
 */
typedef struct {
    uint64_t closed;         /* records below it have left memory */
    uint64_t head;           /* those below it are read from the file, by each session that has seen it */
    uint64_t flushed;        /* those below it are in the file, and synced */
    uint64_t safe_read_only; /* those below it change no more */
    uint64_t read_only;      /* those below it aren't updated in place, by each session that has seen it */
    uint64_t tail;           /* the next record's address */
    uint64_t overflow;       /* no offset: how many overflow buckets of the index are taken */
} fkv_offsets;

/* What a turn of the keeper has posted, or what it has done. */
typedef struct {
    uint64_t place;       /* after FKV_READ and FKV_WRITE: where in the file, in bytes */
    uint64_t length;      /* and how many bytes */
    const uint8_t *bytes; /* after FKV_WRITE: what is to be written. Valid until the next call on this keeper */
    uint64_t finished;    /* after FKV_OVER: 1 if the turn has finished a commit */
    uint64_t number;      /* and that commit's number */
    uint64_t drain_full;  /* after FKV_OVER: 1 if a part was left to a later turn, since no drain slot was free */
} fkv_turned;

/* Answers of a session's calls. */
enum { FKV_DONE = 0, FKV_FOUND = 1, FKV_NONE = 2, FKV_PENDING = 3 };

/* Answers of a turn. */
enum { FKV_OVER = 0, FKV_READ = 1, FKV_WRITE = 2, FKV_SYNC = 3 };

/* Merges: updates that make a new value of the key's value and a number. FASTER calls such updates RMW. See fkv_merge. */
enum {
    FKV_KEEP = 0, /* leaves the value as it is, and a key without one without; the number is not looked at */
    FKV_MIN = 1,  /* lowers the value to the number; a key without a value gets the number */
    FKV_SUB = 2,  /* takes the number from the value, down to 0; a key without a value gets 0 */
    FKV_AND = 3,  /* leaves the bits that both have; a key without a value gets 0 */
    FKV_OR = 4,   /* leaves the bits that either has, and 2^64 - 2 where these are all; a key without a value gets the number */
    FKV_FIRST = 5 /* gives the number to a key without a value, and leaves any other as it is */
};

/*
 * Why an update is pending. One that finds no room in the index or the log at its call is refused. In a living store no poll finds them full
 * (fkv_shape). In a specified one an update that does stays pending, and a poll gives no reason: fkv_settle of fkv_posix.h finds that out.
 */
enum {
    FKV_FUZZY = 1,     /* its record is about to become read-only */
    FKV_DISK = 2,      /* its record may lie in the file alone */
    FKV_LATCH = 3,     /* a commit holds its bucket */
    FKV_CONTENDED = 4, /* another session was quicker: poll at once */
    FKV_NO_ROOM = 5    /* the next page isn't open yet: the keeper is behind */
};

/* Kinds of a finished request. */
enum { FKV_UPDATED = 0, FKV_READ_FOUND = 1, FKV_READ_NONE = 2 };

/* Phases of a commit. */
enum { FKV_REST = 0, FKV_PREPARE = 1, FKV_IN_PROGRESS = 2, FKV_WAIT_PENDING = 3, FKV_WAIT_FLUSH = 4 };

/* How keys are placed, the same at each opening of a store. See fkv_open. */
enum { FKV_SPREAD = 0, FKV_SPREAD_ALREADY = 1 };

/* In place of a number of records: an opening gives memory none. See fkv_open. */
#define FKV_COLD UINT64_MAX

/* How a renewal places the old store's keys. See fkv_renew. */
enum { FKV_AS_THEY_LIE = 0, FKV_SPREAD_NOW = 1 };

/* Faults. A refusal is minus one of them; fkv_name_of tells its name. */
enum {
    FKV_BAD_SHAPE = 1,       /* a size of the shape is outside its limits */
    FKV_VALUE_RESERVED = 2,  /* 2^64 - 1 is no value */
    FKV_PENDING_FULL = 3,    /* 64 requests of the session are pending: poll, refresh, and call again */
    FKV_INDEX_FULL = 4,      /* the index has no room for another home of keys, but what polls may need */
    FKV_LOG_FULL = 5,        /* the log has no room for another record, but what polls may need, and never will have */
    FKV_VERSIONS_SPENT = 6,  /* the store has taken its last commit */
    FKV_SERIALS_SPENT = 7,   /* the session has taken its last serial, 2^48 - 1 */
    FKV_EPOCHS_SPENT = 8,    /* the last epoch is reached */
    FKV_DRAIN_FULL = 9,      /* a commit: no drain slot is free; ask again after a turn */
    FKV_COMMIT_RUNNING = 10, /* a commit: another one runs, or a turn is in hand */
    FKV_PENDING_LEFT = 11,   /* the session has pending requests: poll until none is left */
    FKV_ASLEEP = 12,         /* the session sleeps */
    FKV_BROKEN = 13,         /* a call of the device has failed before: the store commits no more. Open it anew. Or the handle was ended */
    FKV_DEVICE = 14,         /* a call of the device has failed. Of fkv_posix.h: the system refused; errno says why */
    FKV_NOT_A_STORE = 15,    /* the bytes are no store's */
    FKV_DAMAGED = 16,        /* the bytes are a store's, and damaged */
    FKV_SCRIPT = 17,         /* never comes here */
    FKV_MEMORY = 18,         /* memory was refused */
    FKV_NO_SESSION = 19,     /* the shape has no session of this number, or its handle was ended */
    FKV_AWAKE = 20,          /* the session is awake */
    FKV_LOST_FULL = 21,      /* a log commit: over eight ranges of lost records are in hand, or the full one is too old. A full commit helps */
    FKV_HANDLE_OUT = 22,     /* a handle of the store is out still; of fkv_stop: called by a hook, or held up by the caller's session */
    FKV_HANDLE_TAKEN = 23,   /* the handle was taken before; of fkv_start: the keeper's thread runs already */
    FKV_ROOM_SMALL = 24,     /* the caller's room is too small */
    FKV_NO_KEEPER = 25,      /* of fkv_posix.h: no keeper's thread runs. fkv_start comes first */
    FKV_NO_MERGE = 26        /* no merge has this number: it is none of FKV_KEEP .. */
};

/* The name of the fault of a result, as "Asleep" of -12 or of 12; "Done" of 0, and "Unknown" of any other number. Never NULL. */
const char *fkv_name_of(int32_t result);

/* The same as a sentence for people: what was refused, and what helps. "Done." of 0, "Unknown fault." of any other number. Never NULL. */
const char *fkv_text_of(int32_t result);

/* ---- The store ------------------------------------------------------------------------------------------------------------ */

/*
 * Writes a new living store's file of this shape, FKV_IMAGE_SIZE bytes. The caller puts them into a file, syncs it and its folder. The store
 * has 65 overflow buckets more for each session, as far as there may be so many: calls leave these to polls (fkv_shape). So fkv_open tells them
 * too.
 * 0; -FKV_BAD_SHAPE, -FKV_MEMORY, -FKV_ROOM_SMALL.
 */
int32_t fkv_image(const fkv_shape *shape, uint8_t *into, size_t room);

/*
 * Opens the store of these bytes: all bytes of its file, which were synced before they were read. They are not needed after the
 * call, nor kept. `bytes` isn't NULL, though `size` may be 0. `*out` is the address of an fkv_store's word: `&store.at`.
 *
 * `keys` says how keys are placed. The index goes by a key's low bits, so keys in steps of 2^20 would meet in a few buckets. With
 * FKV_SPREAD each key is first spread over all 64 bits, one to one. With FKV_SPREAD_ALREADY keys are taken as they are: for keys that
 * are hashes, or random. Say the same at each opening. A store that is opened the other way finds none of its keys, and nothing tells
 * so.
 *
 * `warm` is how many of the newest records memory gets at most, 0 for as many as fit. They are found in memory from the beginning on. A
 * read of any other record waits for the keeper, and so does each with FKV_COLD.
 *
 * Each session is awake after the call, whether it is taken or not, and commits wait for its refresh: take them all, and put those
 * to sleep that you don't use.
 *
 * `*shape` becomes the store's shape, `*opened` what the opening found, and `points` each session's last kept serial, as many as fit into
 * `room`. What lies behind the last session's says nothing. `points` isn't NULL, though `room` may be 0.
 * 0; -FKV_NOT_A_STORE, -FKV_DAMAGED (`*opened` says where), -FKV_MEMORY.
 */
int32_t fkv_open(const uint8_t *bytes, size_t size, uint32_t keys, uint64_t warm, void **out, fkv_shape *shape, fkv_opened *opened,
                 uint64_t *points, size_t room);

/*
 * Hands out session `number`, from 0: `*out` is `&session.at`. Once. It is awake.
 * 0; -FKV_NO_SESSION, -FKV_HANDLE_TAKEN; -FKV_MEMORY, and then nobody gets it any more.
 */
int32_t fkv_take_session(fkv_store *store, uint64_t number, void **out);

/* Hands out the keeper: `*out` is `&keeper.at`. Once. 0; -FKV_HANDLE_TAKEN; -FKV_MEMORY, and then nobody gets it any more. */
int32_t fkv_take_keeper(fkv_store *store, void **out);

/*
 * Gives the store's memory back, once each handle that was taken is ended. What no commit has kept is lost. -FKV_HANDLE_OUT while
 * one is out; a handle that wasn't taken then can't be taken any more. After a 0, fkv_free_store.
 */
int32_t fkv_close(fkv_store *store);

/*
 * Frees the handle's own block, after an fkv_close that gave 0. The word is dead then. The block comes from malloc, so the program's
 * malloc and free are those that the library is linked with.
 */
static inline void fkv_free_store(fkv_store store) { free(store.at); }

/*
 * Writes the file of a new store that is a renewal of an old one. It has the old one's points, and just its keys with their values. They
 * are its commit 1, with one record for each key. So a store that has no room or no commits left lives on. Serials that are spent stay
 * spent. `bytes` are all `size` bytes of the old store's file, synced, and no store need be open. Nothing is kept after the call.
 * fkv_renew of the repository is a program that does so from file to file.
 *
 * `*shape` has the sizes of the new store, which is a living one then. If its sizes are all 0, the new store has the old one's sizes and
 * class. No overflow buckets are added: `overflow` says how many there are, with those that calls leave to polls (fkv_shape). What is renewed may
 * take them too, and the log's last records.
 *
 * `keys` says how keys come to lie. With FKV_AS_THEY_LIE the new store is opened as the old one. FKV_SPREAD_NOW is for an old store of
 * FKV_SPREAD_ALREADY: each key is spread, and the new store is opened with FKV_SPREAD from then on. Nothing tells whether keys lie
 * spread already, and such keys would be spread twice.
 *
 * `renewed->size` is how many bytes the new file has. If `room` is less, nothing is written, and the call may be made again with so much.
 * `into` isn't NULL, though `room` may be 0. The caller puts the bytes into a file, syncs it and its folder.
 * 0; -FKV_ROOM_SMALL; -FKV_BAD_SHAPE, -FKV_NOT_A_STORE, -FKV_DAMAGED (`*renewed` says where), -FKV_MEMORY. The new shape is too small:
 * -FKV_INDEX_FULL, -FKV_LOG_FULL, -FKV_NO_SESSION (a session beyond its own has a point).
 */
int32_t fkv_renew(const uint8_t *bytes, size_t size, const fkv_shape *shape, uint32_t keys, fkv_renewed *renewed, uint8_t *into,
                  size_t room);

/* ---- A session ------------------------------------------------------------------------------------------------------------ */

/*
 * Reads a key. FKV_FOUND (`*value`), FKV_NONE, or FKV_PENDING: the record lies in the file alone. Then `*value` is a ticket, by which
 * a later poll reports what was found. -FKV_ASLEEP, -FKV_PENDING_FULL.
 */
int32_t fkv_get(fkv_session *session, uint64_t key, uint64_t *value);

/*
 * Updates of a key. FKV_DONE, or FKV_PENDING: it is accepted, and takes effect at a later poll. Either way `result->serial` is its
 * serial. -FKV_ASLEEP, -FKV_VALUE_RESERVED, -FKV_PENDING_FULL, -FKV_SERIALS_SPENT, -FKV_INDEX_FULL, -FKV_LOG_FULL.
 *
 * A session's pending updates take effect in any order. If it updates the same key again meanwhile, the later update may take effect
 * first, and the earlier one then wins. A read doesn't see what is pending. So poll until nothing is left before the next call of that
 * key; fkv_put, fkv_increment, fkv_raise, fkv_remove and fkv_merge_now of fkv_posix.h do so.
 *
 *   fkv_upsert   gives the key this value
 *   fkv_add      adds to its value, up to 2^64 - 2; a key without a value gets the number
 *   fkv_max      raises its value to the number; a key without a value gets the number
 *   fkv_delete   takes its value away
 *   fkv_merge    merges the number into its value, as `which` says: FKV_KEEP .. Or -FKV_NO_MERGE, and nothing is done
 *   fkv_keep     leaves its value as it is, and reports it: FKV_KEEP. It is an update, with a serial, and as others it makes a new record
 *                where the key has none that may be changed in place. Of a key without a value that is a record too, as of fkv_delete
 */
int32_t fkv_upsert(fkv_session *session, uint64_t key, uint64_t value, fkv_update *result);
int32_t fkv_add(fkv_session *session, uint64_t key, uint64_t number, fkv_update *result);
int32_t fkv_max(fkv_session *session, uint64_t key, uint64_t number, fkv_update *result);
int32_t fkv_delete(fkv_session *session, uint64_t key, fkv_update *result);
int32_t fkv_merge(fkv_session *session, uint64_t key, uint32_t which, uint64_t number, fkv_update *result);
int32_t fkv_keep(fkv_session *session, uint64_t key, fkv_update *result);

/*
 * The same calls of `count` keys: one after the other, in the order of `keys`, and the result of each is at its place in `results`.
 * They do what so many single calls do. A key may come twice. A refusal of one doesn't end the others: see each `result`.
 *
 * They are for stores whose index and records don't fit the processor's caches. Before each 16 calls most cache lines are fetched that
 * these will read, so their misses are waited for at once. With 2^20 keys that is 1.2 to 1.7 times as fast as single calls. A store
 * that fits the caches goes better by single calls: many take up to half as long again. The session doesn't refresh meanwhile: poll
 * and refresh between calls of 64 keys or so.
 *
 * `results` has `room` places, and those after `count` stay as they are. `values` and `numbers` are as many as the keys. No pointer is
 * NULL, though a length may be 0.
 * 0; -FKV_ROOM_SMALL where `room` is below `count`, or there are other than as many values or numbers as keys; -FKV_NO_MERGE as of
 * fkv_merge. Then nothing is done.
 */
int32_t fkv_get_many(fkv_session *session, const uint64_t *keys, size_t count, fkv_each_read *results, size_t room);
int32_t fkv_upsert_many(fkv_session *session, const uint64_t *keys, size_t count, const uint64_t *values, size_t values_count,
                        fkv_each_update *results, size_t room);
int32_t fkv_add_many(fkv_session *session, const uint64_t *keys, size_t count, const uint64_t *numbers, size_t numbers_count,
                     fkv_each_update *results, size_t room);
int32_t fkv_merge_many(fkv_session *session, uint32_t which, const uint64_t *keys, size_t count, const uint64_t *numbers,
                       size_t numbers_count, fkv_each_update *results, size_t room);

/*
 * Lets the session see how far the store has come, and take up a commit. Nothing of the store moves on past a session that is awake
 * and doesn't refresh: no commit finishes, and no page of memory is used again. 0; -FKV_ASLEEP.
 */
int32_t fkv_refresh(fkv_session *session, fkv_seen *seen);

/*
 * Tries the session's pending requests once more, and tells those that are finished: `*count` of them, in `into`. The answer is how
 * many are left. -FKV_ASLEEP; -FKV_ROOM_SMALL where `room` is below FKV_MOST_PENDING.
 */
int32_t fkv_poll(fkv_session *session, fkv_finished *into, size_t room, uint64_t *count);

/* The session leaves, and nobody waits for it: before its thread blocks. 0; -FKV_ASLEEP, -FKV_PENDING_LEFT. */
int32_t fkv_sleep(fkv_session *session);

/* The session comes back. 0; -FKV_AWAKE. */
int32_t fkv_wake(fkv_session *session, fkv_seen *seen);

/*
 * The serial up to which this session's updates are in a commit that is whole in the file: a crash from now on keeps them. A session that
 * sleeps may ask too. 0; -FKV_NO_SESSION after fkv_end_session.
 */
int32_t fkv_durable(fkv_session *session, uint64_t *serial);

/*
 * The last serial that the session has given, and 0 if it has given none. Its next update has the one after it. After an opening that
 * is its point. A session that sleeps may ask too. 0; -FKV_NO_SESSION after fkv_end_session.
 */
int32_t fkv_serial(fkv_session *session, uint64_t *serial);

/*
 * Two sessions of one opening of a store meet: each has then seen what either had seen. So what the one was told as done is in force for
 * each later call of the other: a read gives it, or something newer. Reads do so without this call too, if something has ordered the two
 * threads' calls. With it that is proved, of reads that a poll answers too. Both handles are in use by this call: hold the mutex that the
 * other's thread takes for its calls. They are two, of one opening; nothing tells if they aren't. It never waits, and changes nothing else.
 * A session that sleeps may meet another. 0; -FKV_NO_SESSION after fkv_end_session of one of them, and then both stay as they are.
 */
int32_t fkv_meet(fkv_session *session, fkv_session *other);

/* Puts the session to sleep and gives the handle up. 0; -FKV_PENDING_LEFT. After a 0, fkv_free_session. */
int32_t fkv_end_session(fkv_session *session);

/* Frees the handle's own block, after an fkv_end_session that gave 0. The word is dead then. */
static inline void fkv_free_session(fkv_session session) { free(session.at); }

/* ---- The keeper ----------------------------------------------------------------------------------------------------------- */

/* The kinds of a commit. */
enum { FKV_FULL = 0, FKV_LOG = 1, FKV_TRIM = 2 };

/*
 * Begins a commit of a kind, and writes its number; later turns carry it on, and one of them reports that it is finished. A log commit
 * (FKV_LOG) writes the log alone, and leaves the index to the last full one: it is shorter, and the next opening longer. FKV_TRIM is a full one, behind which
 * turns by fkv_turn and fkv_sweep go over the log's front (living stores alone): up to the commit's first record, 256 records at most in a turn, and only with no
 * commit in hand. Once all of them are passed, the log of the next commit that begins begins there (fkv_begin). See fkv_wanted.
 * 0; -FKV_BROKEN, -FKV_COMMIT_RUNNING, -FKV_VERSIONS_SPENT, -FKV_LOST_FULL, -FKV_EPOCHS_SPENT, -FKV_DRAIN_FULL.
 */
int32_t fkv_commit(fkv_keeper *keeper, uint32_t kind, uint64_t *number);

/*
 * Which keys keep the log's front from being given up: writes them as the store has them, as many as fit, and tells how many. The last turn that has swept has
 * found that the front has their newest records. Each is kept by fkv_merge with FKV_KEEP, by any session, and of FKV_SPREAD by the key fkv_spread_back of the word.
 * Nobody is trusted for it: the next such turn looks again. There are FKV_MOST_WANTED at most. `keys` isn't NULL, though `room` may be 0.
 */
size_t fkv_wanted(fkv_keeper *keeper, uint64_t *keys, size_t room);
enum { FKV_MOST_WANTED = 16 };

/*
 * The address at which the log of the newest finished commit begins. No record below it is read any more, nor counts after a crash: these bytes of the file may be
 * given back. 0 after fkv_end_keeper.
 */
uint64_t fkv_begin(fkv_keeper *keeper);

/*
 * Begins a turn, or asks again what the turn in hand has posted. The answer says what the caller does next:
 *
 *   FKV_READ    reads `length` bytes (24, in a sweep 768) of the file at `place`, with zeros past its end, and gives them to fkv_io_done
 *   FKV_WRITE   writes the `length` bytes at `bytes` to `place`, all of them. It may lie past the end of the file, which then grows
 *   FKV_SYNC    syncs the file (fdatasync)
 *   FKV_OVER    the turn is over. If it has finished a commit, `finished` is 1, `number` is its number, and `points` has each
 *               session's last serial that it keeps, as many as fit into `room`. `points` isn't NULL, though that may be 0
 *
 * A refusal ends the turn: -FKV_DEVICE (the call of the file has failed), -FKV_BROKEN (an earlier call has failed: the keeper is dead for
 * good), -FKV_MEMORY (the next turn tries again), -FKV_EPOCHS_SPENT.
 *
 * The library relies on two things: a read returns what was written last, and a sync that succeeds has put all of it on the disk. Nobody
 * else writes to the file meanwhile.
 */
int32_t fkv_turn(fkv_keeper *keeper, fkv_turned *turned, uint64_t *points, size_t room);

/*
 * A commit of a living store rests before each sync of its writes: there the turn is over, and fkv_rests answers 1 up to the turn that goes on.
 * fkv_serve makes a turn that serves reads of the file, and leaves the writes at rest. It answers as fkv_turn does, and where nothing rests, nor
 * comes to rest in that turn, it is fkv_turn. fkv_turn serves too, and then goes on with the writes: it posts the sync.
 *
 * What is flushed of a living store's log rests before its sync, too. Where fkv_serve makes the turn that writes it, fkv_rests answers 1 from then on,
 * and turns by fkv_serve only serve, up to one by fkv_turn: the turn behind that one posts the sync. Where fkv_turn makes the turn that writes it, the
 * next turn posts the sync. A commit may begin meanwhile.
 *
 * So a caller may sync the file by itself, in another thread, and serve meanwhile. If that sync has succeeded, and nothing was written since it
 * began, it answers the one that is posted. If it has failed, it isn't made again: the posted one has failed. Who calls fkv_turn alone makes a
 * few turns more for a commit.
 */
int32_t fkv_serve(fkv_keeper *keeper, fkv_turned *turned, uint64_t *points, size_t room);

/* As fkv_serve, but that a sweep of the log's front goes on, as in fkv_turn. */
int32_t fkv_sweep(fkv_keeper *keeper, fkv_turned *turned, uint64_t *points, size_t room);

/* 1 where writes of a commit or a flush rest behind the last turn, and weren't let go on: then fkv_serve only serves. Else 0. */
int32_t fkv_rests(fkv_keeper *keeper);

/*
 * Takes how the posted call has gone, and goes on with the turn, as fkv_turn does. `failed` isn't 0 where it has failed. After a
 * read `bytes` are what was read, `size` of them, and else `size` is 0. `bytes` isn't NULL, and `points` neither.
 *
 * fkv_told is the older name of the same call.
 */
int32_t fkv_told(fkv_keeper *keeper, uint32_t failed, const uint8_t *bytes, size_t size, fkv_turned *turned, uint64_t *points,
                 size_t room);
static inline int32_t fkv_io_done(fkv_keeper *keeper, uint32_t failed, const uint8_t *bytes, size_t size, fkv_turned *turned,
                                  uint64_t *points, size_t room) {
    return fkv_told(keeper, failed, bytes, size, turned, points, room);
}

/* Gives the handle up. What a commit in hand has not finished is lost. After it, fkv_free_keeper. */
void fkv_end_keeper(fkv_keeper *keeper);

/* Frees the handle's own block, after fkv_end_keeper. The word is dead then. */
static inline void fkv_free_keeper(fkv_keeper keeper) { free(keeper.at); }

/* ---- Hints ---------------------------------------------------------------------------------------------------------------- */

/*
 * What the store's memory says just now, for who plans his calls by it. Hints change nothing, hold nobody up, and wait for nobody. A session
 * that sleeps may ask too. It is proved that they return, and nothing of what they tell: by the time that it is read it may be otherwise.
 *
 *   fkv_hint_offsets   how far the log has come. 0; -FKV_NO_SESSION after fkv_end_session
 *   fkv_hint_store     the same, by the store's handle. 0; -FKV_BROKEN after an fkv_close that gave 0
 *   fkv_hint_where     the address of the newest record of the key's home, or 0: there is none, or it wasn't seen in eight buckets. A home
 *                      has few keys, mostly one, so that record may be another key's.
 *   fkv_hint_keys      the keys of the records in memory from an address on, as many as `room` takes: their count is the answer. A
 *                      record may be none that counts; if fkv_hint_where of its key is its address, it is the newest of its home.
 *                      `keys` isn't NULL, though `room` may be 0
 */
int32_t fkv_hint_offsets(fkv_session *session, fkv_offsets *offsets);
int32_t fkv_hint_store(fkv_store *store, fkv_offsets *offsets);
uint64_t fkv_hint_where(fkv_session *session, uint64_t key);
size_t fkv_hint_keys(fkv_session *session, uint64_t address, uint64_t *keys, size_t room);

/* ---- Keys ----------------------------------------------------------------------------------------------------------------- */

/* The word under which a key lies in a store of FKV_SPREAD, and the key of such a word: for who reads a store's file otherwise. */
uint64_t fkv_spread(uint64_t key);
uint64_t fkv_spread_back(uint64_t word);

#ifdef __cplusplus
}
#endif

#endif
