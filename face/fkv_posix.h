/*
 * fkv_posix.h: a store in a file, for Linux. It makes the calls that fkv.h leaves to its caller: of the file, and in a thread of its
 * own the keeper's turns and commits.
 *
 *     fkv_open_or_make                       opens the store in a file, and makes it for what you wish if there is none
 *     fkv_start                              starts the keeper's thread
 *     fkv_join                               gives a thread a session
 *     fkv_put, fkv_increment, fkv_raise,     calls of a key that wait where they have to
 *     fkv_remove, fkv_merge_now, fkv_read
 *     fkv_tick                               between calls: lets the store go on, and says whether it does
 *     fkv_commit_and_wait                    all that the session has done survives a crash from then on
 *     fkv_leave, fkv_close_file
 *
 * Threads. The calls that take an fkv_file may be called by any thread at any time, up to fkv_close_file or fkv_drop_file, which is the
 * last. One call at a time on one session. It may move to another thread, as a handle of fkv.h may. A session that waits makes turns of
 * the keeper in its own thread, with their calls of the file, while no commit is in hand. While the keeper's thread syncs what a commit or a flush
 * has written, it makes turns that only serve reads.
 *
 * Results are those of fkv.h, and so is what it says of pointers. A call that waits may have done a part of its work before it is refused.
 * Where a result is -FKV_DEVICE, errno says what the system has refused: ENOENT no such file, EEXIST there is one already, EWOULDBLOCK
 * it is open already, ENOSPC no room. That holds too if another thread made the call.
 *
 * Who waits is refused by the keeper's fault (fkv_keeper_fault) where that can't go on, and by -FKV_NO_KEEPER where fkv_start was forgotten
 * or fkv_stop came. In a living store nobody waits for room that never comes: what finds none is refused at its call (fkv_shape).
 *
 * In a specified store (FKVSTOR1) who waits is refused by -FKV_LOG_FULL or -FKV_INDEX_FULL too, where an update will never find room. The engine
 * gives no reason at a poll, so these two go by a rule. Nothing of the session was finished for a second and 200 turns: then it is -FKV_LOG_FULL
 * if the log's last pages are in use, as far as the file's writes say so; else -FKV_INDEX_FULL if no other session is joined, or the index has
 * refused an update. If an update was refused by a full log before, 50 milliseconds are enough. The update stays pending then, and no commit
 * finishes past it. If one does all the same, the rule was wrong, and fkv_tick takes its answer back. Renew the store (fkv_renew).
 */
#ifndef FKV_POSIX_H
#define FKV_POSIX_H

#include "fkv.h"

#ifdef __cplusplus
extern "C" {
#endif

/* An open store in a file. */
typedef struct fkv_file fkv_file;

/* Long work, and how far it has come. */
typedef struct {
    uint32_t work;  /* FKV_OPENING, FKV_COMMITTING, FKV_SAVING */
    uint64_t done;  /* bytes that were read, or copied; bytes that were written since the commit began */
    uint64_t total; /* bytes of the file; 0 of a commit, since nobody knows how many it takes */
} fkv_progress;

enum { FKV_OPENING = 0, FKV_COMMITTING = 1, FKV_SAVING = 2 };

typedef void fkv_progress_fn(void *user, const fkv_progress *progress);

/* A commit that is finished: its number, and the last serial of each session that it keeps. */
typedef void fkv_committed_fn(void *user, uint64_t number, const uint64_t *points, size_t sessions);

/* A request that was pending and is finished. */
typedef void fkv_finished_fn(void *user, const fkv_finished *finished);

/* There are no commits any more, or the log has no room: what fkv_tick answers from now on. */
typedef void fkv_stopped_fn(void *user, int32_t fault);

/* Nothing keeps this store's memory warm: see fkv_start. */
typedef void fkv_unwarmed_fn(void *user);

/*
 * The log's front can't be given back: the store has no session for it (`why` is 0), or the file system can't (errno). Or it isn't as fast as the log
 * grows (EAGAIN).
 */
typedef void fkv_untrimmed_fn(void *user, int why);

/* ---- Sizes ---------------------------------------------------------------------------------------------------------------- */

/*
 * Sessions that may be asked for, at most. Each living store of two sessions or more has one of the library's own, by which memory is kept
 * warm (fkv_start): the last one of its file. It is nobody else's, whether memory is kept warm or not. The calls of this header take and
 * tell the other sessions alone. So fkv_make_file and the renewals give a file one session more than its shape says: who opens that by
 * fkv_open of fkv.h has it too. A file with n of fkv_image, or of an older library, has n - 1 for users. A store of one session has none
 * for the library, and neither has a specified store (FKVSTOR1): there all are the user's.
 */
#define FKV_MOST_JOINED 31

/* What a program wants of a new store. A 0 takes the default, which each comment ends with. */
typedef struct {
    uint64_t keys;                   /* keys that it will have; 65,536 */
    uint64_t sessions;               /* threads that use it at once, at most 31; 8. A turn takes 0.1 microseconds for each */
    uint64_t memory_bytes;           /* memory that it may take once it is open, at most; as its keys want: some 250 bytes for each */
    uint64_t updates_between_commits; /* keys that are updated between two commits; all of them. The page goes by it */
    uint64_t log_bytes;              /* as in fkv_keeping, which goes before it; of fkv_open_or_make */
} fkv_wish;

/* What a store of a shape takes, and holds. */
typedef struct {
    uint64_t memory_bytes;  /* while it is open, with the copy that a full commit makes */
    uint64_t opening_bytes; /* about: at the height of an opening, where all these keys are there. The file's bytes come on top */
    uint64_t file_bytes;    /* of its file, at most. It grows as the log does: 24 bytes a record. What is given back of it takes none (fkv_start) */
    uint64_t keys;          /* that fit, all but surely: by buckets, overflow buckets, and one spare of these for each session but one */
    uint64_t records;       /* that calls may append in all the store's life. Others are left to polls (fkv_shape) */
} fkv_size;

/*
 * The shape of a store for what a program wants. `wish` may be NULL.
 *
 * Two rules make a store fast. Memory holds all records between two touches of a key: a key's first update after a commit appends a record,
 * so a key that is touched at random wants memory for several records of each key. With less memory each touch reads the file first. And
 * the index has buckets for all keys: seven fit each, and the overflow buckets take the rest. The log has 2^30 pages, the most that there may be.
 * 0; -FKV_BAD_SHAPE: there are more keys or sessions than a store may be asked for, or memory is too small for the index.
 */
int32_t fkv_shape_for(const fkv_wish *wish, fkv_shape *shape);

/* What a new store of this shape takes, and holds, with the library's session. 0; -FKV_BAD_SHAPE (of 32 sessions too), -FKV_MEMORY. */
int32_t fkv_size_of(const fkv_shape *shape, fkv_size *size);

/* ---- The file ------------------------------------------------------------------------------------------------------------- */

/*
 * Makes the file of a new living store of this shape, which has 1 to 31 sessions (FKV_MOST_JOINED). The file has one session more, and 65
 * overflow buckets more for each of its sessions, as far as there may be so many: calls leave these to polls (fkv_shape). `disk_pages` bounds
 * the log over all the store's life; 0 lets it have as many as there may be, 2^30. The file is as long as its log is. It is written under
 * another name in the same folder, synced, and put in place by a rename that replaces nothing; then the folder is synced. So a crash leaves the
 * whole file or none of this name. It may leave one of another name, `path` with ".new" and eight digits, which no store needs. The file isn't
 * open after the call.
 * 0; -FKV_BAD_SHAPE (of 32 sessions too), -FKV_MEMORY, -FKV_DEVICE (errno EEXIST: there is a file of this name, and it stays as it is). If the
 * folder's sync alone has failed, the new file stays in place, and the next call tells EEXIST. An opening syncs the folder again.
 */
int32_t fkv_make_file(const char *path, const fkv_shape *shape);

/* How a store is opened. All zeros, or NULL in its place, is the usual way. */
typedef struct {
    uint32_t keys;             /* FKV_SPREAD or FKV_SPREAD_ALREADY: the same at each opening (fkv_open) */
    uint32_t mapped;           /* not 0: the file is mapped, for one that memory can't hold. Records are read back by a mapping too, which
                                  is faster. A bad disk then kills the process */
    fkv_progress_fn *progress; /* called while the file is read, or NULL */
    void *user;                /* handed to it */
    fkv_opened *opened;        /* becomes what fkv_open found, after -FKV_DAMAGED too; or NULL */
    uint64_t warm;             /* how many of the newest records memory gets at most: 0 for as many as fit, FKV_COLD for none (fkv_open) */
} fkv_how;

/*
 * Opens the store in this file, or makes the file first if there is none. `wish` says how large it is to be, and may be NULL. A store that
 * is there keeps its own shape. The refusals are those of fkv_open_file, fkv_shape_for and fkv_make_file.
 */
int32_t fkv_open_or_make(const char *path, const fkv_wish *wish, fkv_file **out);

/*
 * Opens the store in this file. All sessions sleep. No commit is made before fkv_start.
 *
 * The file is locked (flock), so that neither this process nor another one opens it meanwhile. The lock ends with fkv_close_file, or with
 * the process. If that has forked children, it ends with the last of them that has called no exec.
 *
 * The file is synced first, and so is the folder of `path`: no commit is reported of a file whose name a crash may take. A folder that
 * can't be read can't be synced. If `path` is a link, the folder of the link is synced, and that of the file isn't. Before that sync the
 * bytes by which commits are recorded are written anew, as they read: so the disk has the commit that is reported, also after a life
 * whose sync failed. If the system takes no write, as may happen on a full disk, the opening is refused.
 * 0; -FKV_NOT_A_STORE, -FKV_DAMAGED, -FKV_MEMORY, -FKV_DEVICE (errno EWOULDBLOCK: it is open already; EACCES: no right to read or write
 * the file, or to read its folder).
 */
int32_t fkv_open_file(const char *path, const fkv_how *how, fkv_file **out);

/*
 * Closes the file. If the keeper's thread runs, and a session has done something that no commit keeps, a last commit is made first. Then
 * the thread ends. Without the thread, what no commit has kept is lost. Requests of an abandoned session, or of the library's, that can't be
 * finished hold the store's memory until the process ends: a call of the file has failed, or in a specified store the index or the log is full.
 * Then it takes a second or two.
 * 0; the fault of the last commit (-FKV_DEVICE, -FKV_VERSIONS_SPENT, of a specified store -FKV_LOG_FULL ..). The file is closed then too.
 * -FKV_HANDLE_OUT while a session is joined, and in a hook of the keeper's thread. Then the file stays open.
 */
int32_t fkv_close_file(fkv_file *file);

/* Closes the file without a last commit: what no commit has kept is lost. 0; -FKV_HANDLE_OUT as of fkv_close_file. */
int32_t fkv_drop_file(fkv_file *file);

/*
 * Makes a backup of an open store: a new file at `path`, written under another name in the same folder, synced, and put in place by a
 * rename that replaces nothing. It has the last finished commit, or the one that is just being finished. Sessions go on in memory
 * meanwhile. Turns of the keeper wait until the file is copied: so do commits, reads of records that only the file has, and updates that want
 * another page. Where the file system can share the bytes of two files (btrfs, XFS) that takes no time.
 *
 * The copy is made between two turns, and so the file reads as a crash at that place would leave it, with all writes kept. A copy that `cp`
 * makes of an open store is none: its parts are of different times.
 *
 * `progress` is called as bytes are copied, or NULL; `user` is handed to it.
 * 0; -FKV_MEMORY; -FKV_DEVICE (errno EEXIST: there is a file of this name, and it stays as it is; ENOSPC ..).
 */
int32_t fkv_save(fkv_file *file, const char *path, fkv_progress_fn *progress, void *user);

/* A pair of a store, with the key as the user knows it. 0 to go on; what else it answers ends the call, which answers it too. */
typedef int32_t fkv_pair_fn(void *user, uint64_t key, uint64_t value);

/*
 * Calls `each` for each pair of a store: those of the last finished commit, or of the one that is just being finished, each key once, in no
 * order. Sessions go on meanwhile. Turns of the keeper wait until the file is read; `each` is called after that. It takes memory for the
 * file, for its renewal, and for an opening.
 * 0, or what `each` has answered; -FKV_MEMORY, -FKV_DEVICE.
 */
int32_t fkv_each(fkv_file *file, fkv_pair_fn *each, void *user);

/*
 * Renews the store of the old file in a new one, as fkv_renew does, and puts that in place as fkv_make_file does. The old one is locked
 * meanwhile, and stays as it is. `shape` is NULL or all zeros for its own sizes and class: the new file has as many sessions and overflow
 * buckets then. Of other sizes the new store is a living one, with 1 to 31 sessions (FKV_MOST_JOINED), and has beside them what fkv_make_file
 * adds. The library's session begins anew. `renewed` may be NULL.
 * The refusals are those of fkv_renew but -FKV_ROOM_SMALL; -FKV_DEVICE (errno EWOULDBLOCK: the old store is open; EEXIST: there is a file
 * of the new name).
 */
int32_t fkv_renew_file(const char *old_path, const char *new_path, const fkv_shape *shape, uint32_t keys, fkv_renewed *renewed);

/*
 * Renews an open store in place: what no room or no commits were left of lives on under its own name. Each session has left before. If the
 * keeper's thread runs, a last commit is made if something isn't kept. Then the renewal is written to a new file, which takes the name of
 * the old one, and the thread goes on. `shape` is as of fkv_renew_file. `renewed` may be NULL. A crash leaves the old store or the new one,
 * with the same pairs and points. Sessions that join then go on with their serials; who joins meanwhile waits. The new store's commits count
 * from 1 again, since each store's file says its number itself.
 *
 * It takes the memory of fkv_each and that of the new store. Another name of the file (a link) stays the old store's.
 * 0; -FKV_HANDLE_OUT while a session is joined or abandoned, and in a hook of the keeper's thread; -FKV_NO_KEEPER where something isn't kept
 * and no thread runs; the fault of the last commit, and the refusals of fkv_renew: the store is the old one then, and goes on.
 * -FKV_DEVICE: the same, but if the folder's sync alone has failed, the new store has the name, and has no turns and no commits: close it
 * and open it anew.
 */
int32_t fkv_renew_here(fkv_file *file, const fkv_shape *shape, fkv_renewed *renewed);

/*
 * The store's shape, as fkv_make_file takes it: its sessions are those that can be joined, and of a living store its overflow buckets are those
 * that calls may link. An older file may have fewer of these than it was asked for.
 */
fkv_shape fkv_shape_of(const fkv_file *file);

/* The number of the last finished commit, 0 in a new store, and the last serial of each session that it keeps: see fkv_open. */
uint64_t fkv_last_commit(fkv_file *file, uint64_t points[FKV_MOST_SESSIONS]);

/* ---- Sessions ------------------------------------------------------------------------------------------------------------- */

/* In place of a session's number: the first that nobody has. */
#define FKV_ANY_SESSION UINT64_MAX

/*
 * Gives the caller session `number`, from 0, awake, until fkv_leave. A session's serials go on where the last life's last commit
 * left them.
 * 0; -FKV_NO_SESSION (of FKV_ANY_SESSION: none is left); -FKV_HANDLE_TAKEN (it is joined, or abandoned with requests pending).
 */
int32_t fkv_join(fkv_file *file, uint64_t number, fkv_session **out);

/* Takes it back, asleep. 0; -FKV_PENDING_LEFT: fkv_settle comes first. */
int32_t fkv_leave(fkv_file *file, fkv_session *session);

/*
 * Takes it back in any case, for who can't settle or doesn't want to wait. What is pending is finished by the keeper's thread, as soon
 * as one runs, and isn't reported. Until all of it is finished nobody joins the session. Commits don't wait for its refresh, and keep its
 * updates. While an update of it waits for the full index or log of a specified store, no commit finishes.
 */
void fkv_abandon(fkv_file *file, fkv_session *session);

/*
 * Polls a session until none of its requests is pending, with refreshes between, and gives each that is finished to `report`, which may be
 * NULL. Its thread makes the keeper's turns meanwhile.
 * 0; -FKV_ASLEEP; the refusals of who waits, see above. What is left stays pending then.
 */
int32_t fkv_settle(fkv_file *file, fkv_session *session, fkv_finished_fn *report, void *user);

/*
 * fkv_settle for so many milliseconds at most: FKV_PENDING where requests are left then. They stay pending, and the session may go on,
 * settle again, or be abandoned. With 0 it polls once, and doesn't refresh. The refusals are those of fkv_settle.
 */
int32_t fkv_settle_for(fkv_file *file, fkv_session *session, uint32_t ms, fkv_finished_fn *report, void *user);

/*
 * Lets the store go on: call it between a session's calls, as often as you like. Each 64th tick, or each 8th while a commit waits for the
 * session, polls and refreshes it. The others take a few instructions. What a poll of it has finished isn't reported.
 * 0 while commits go on; -FKV_ASLEEP; and why none is finished any more: the keeper's fault, -FKV_VERSIONS_SPENT once the store has taken
 * its last commit, -FKV_NO_KEEPER, or in a specified store -FKV_INDEX_FULL once an update was found to wait for ever. Calls of the session go on
 * meanwhile, as far as they can, and what no commit keeps is lost with the process. -FKV_LOG_FULL once a call of this header has found the log
 * full: commits of a living store go on then, and it is to be renewed.
 */
int32_t fkv_tick(fkv_file *file, fkv_session *session);

/* ---- Calls of a key that wait ----------------------------------------------------------------------------------------------- */

/*
 * These do what fkv_get and the updates of fkv.h do. Where one of those would be pending, these settle the session at once. So a session
 * that makes no other calls reads what it wrote, and its updates take effect in their order. Without waiting they take no longer. They
 * want the keeper's thread, as fkv_settle does.
 *
 * Requests that the session's other calls have left pending may take effect later than these calls, and before they return: then a key
 * may end with the earlier value. What was pending is finished by a call that waits, and isn't reported.
 *
 * The updates answer FKV_DONE. `result` may be NULL; `result->serial` is 0 if the call was refused before it was accepted, and else its
 * serial. If waiting is refused, the update is accepted and stays pending.
 * The refusals are those of fkv_upsert but -FKV_PENDING_FULL, and those of fkv_settle.
 *
 *   fkv_put         gives the key this value
 *   fkv_increment   adds to its value, up to 2^64 - 2; a key without a value gets the number. `result->value` is what it has left
 *   fkv_raise       raises its value to the number; a key without a value gets the number. `result->value` is what it has left
 *   fkv_remove      takes its value away
 *   fkv_merge_now   merges the number into its value, as fkv_merge does. `result->value` is what it has left; of FKV_KEEP FKV_ABSENT if the
 *                   key has no value. Or -FKV_NO_MERGE
 */
int32_t fkv_put(fkv_file *file, fkv_session *session, uint64_t key, uint64_t value, fkv_update *result);
int32_t fkv_increment(fkv_file *file, fkv_session *session, uint64_t key, uint64_t number, fkv_update *result);
int32_t fkv_raise(fkv_file *file, fkv_session *session, uint64_t key, uint64_t number, fkv_update *result);
int32_t fkv_remove(fkv_file *file, fkv_session *session, uint64_t key, fkv_update *result);
int32_t fkv_merge_now(fkv_file *file, fkv_session *session, uint64_t key, uint32_t which, uint64_t number, fkv_update *result);

/*
 * Reads a key, and waits if only the file has its record: FKV_FOUND (`*value`) or FKV_NONE. Where the system has to fetch records from a disk, and
 * another thread reads one just now, it is asked for this one meanwhile (posix_fadvise).
 * The refusals are those of fkv_get but -FKV_PENDING_FULL, and those of fkv_settle. If waiting is refused, the read stays pending: nothing
 * takes a request back. It is one of the 64 until a poll or the next call that waits finishes it, and fkv_abandon leaves it to the keeper.
 */
int32_t fkv_read(fkv_file *file, fkv_session *session, uint64_t key, uint64_t *value);

/*
 * fkv_read of `count` keys: the results stand in their places in `results`, which has `room` of them. Keys in memory are read many at once.
 * Where the system has to fetch the file's bytes from a disk, it is asked for those of 64 keys ahead (posix_fadvise).
 * 0; -FKV_ROOM_SMALL where `room` is below `count`, and the refusals of fkv_settle. After these a `result` of FKV_PENDING is that of a read
 * that stays so, and the keys after it weren't read.
 */
int32_t fkv_read_many(fkv_file *file, fkv_session *session, const uint64_t *keys, size_t count, fkv_each_read *results, size_t room);

/* ---- The keeper's thread -------------------------------------------------------------------------------------------------- */

/* How the keeper's thread goes. All zeros, or NULL in its place: it commits on request alone. */
typedef struct {
    uint32_t commit_ms;          /* a commit each so many milliseconds, unless no session was joined since the last; 0: on request alone */
    uint32_t log_commits;        /* so many log commits between two full ones; 0: each is full */
    uint32_t turn_us;            /* microseconds between two turns when nothing is to be done; 0: 500. See below */
    fkv_committed_fn *committed; /* called after each finished commit, or NULL */
    fkv_progress_fn *progress;   /* called as a commit begins and after each of its calls of the file, or NULL */
    void *user;                  /* handed to all hooks. The keeper's thread calls them: make them short, and call no fkv_file there */
    fkv_stopped_fn *stopped;     /* called once, as commits end for good or the log is found full, or NULL. See fkv_tick */
    fkv_unwarmed_fn *unwarmed;   /* called once, as the thread begins, if memory can't be kept warm in this store, or NULL. See below */
    uint32_t no_warmer;          /* not 0: memory isn't kept warm, though it could be */
    uint64_t log_bytes;          /* the log's front is given back if it is longer; 0: than twice the records of all keys, a megabyte at least. See below */
    fkv_untrimmed_fn *untrimmed; /* called once if the front can't be given back, or NULL. See below */
} fkv_keeping;

/* In place of fkv_keeping's log_bytes: nothing is given back. */
#define FKV_LOG_KEEPS UINT64_MAX

/*
 * Starts the keeper's thread. `turn_us` is how long it rests while a session is joined and no commit is in hand. Where it is 0, and nothing
 * happens for 30 milliseconds, rests grow to 20 milliseconds. Whoever waits by a call of this header makes his turns himself, or has them
 * made; who polls by himself calls fkv_nudge. While no session is joined it rests 100 milliseconds, or `turn_us` if that is longer. In a
 * commit it rests at most 50 microseconds, and 20 as that begins.
 *
 * Memory is kept warm. Records leave it in their order, so what is only read would be read from the file some day. Between two turns, before
 * a page's frame is used again, the thread keeps each record there that is the newest of its home, by the library's own session
 * (FKV_MOST_JOINED): fkv_keep makes a new record of it. It keeps each key too that fkv_read or fkv_read_many has found in the file alone.
 * Serials, points and values of users stay as they are. A store in which nothing is appended and found does none of it. What it may take:
 *
 *   log     Of all records that calls may append in the store's life an eighth at most are the library's, and for reads since the opening no
 *           more than half of those that are there. So -FKV_LOG_FULL comes by an eighth of the log earlier at most. But for what a sweep wants nothing is kept
 *           any more where a sixteenth of that room is left, or 65,536 records if that is more. A renewal begins anew
 *   time    Half of the thread's at most, and none while a commit waits for sessions. If little time is left for what is about to leave memory,
 *           it works for it before each turn all the same, for 2 milliseconds at most. If half of that time is over, or 32,768 records later
 *           something would leave, updates by calls of this header wait before they begin, for 3 milliseconds at most, and refresh their sessions
 *           meanwhile
 *
 * The log's front is given back if the log is longer than `log_bytes`, or where that is 0, than twice the records of all keys, or a megabyte if
 * that is more. Then the next commit is a full one, behind which the thread's turns go over the records of the front. The library's session keeps
 * the keys that have none further on: that makes new records. The log of a later commit begins behind the front, and once that is finished these
 * bytes become a hole of the file, which gets no shorter. With a longer log fewer keys are kept, and the thread works less.
 *
 * That work is done between two commits, so one that is asked for may come 10 milliseconds later. One by the clock may come by `commit_ms` later if
 * the log is half as long again as it may be, by four of them if it is twice as long, and by sixteen, a second at most, if it is two and a half
 * times as long. A key takes one record between two commits. So where no new keys come, the log doesn't get much longer than that. If it can't be
 * swept as fast as it grows, it goes on growing (fkv_stats), and loses nothing. FKV_LOG_KEEPS gives nothing back. `untrimmed` is called once if it
 * can't be: the store has no session for it, or the file system makes no holes; and with EAGAIN once if the log is four times as long as it may
 * be, as a full commit finds. The keys that are kept count to the library's share of the log, and once that is spent no sweep goes on.
 *
 * If memory has no room for the newest records of all homes, more than three in four of those that leave it are such. Then pages are let go
 * as they are, until they are half at most. Of keys that share a home only the last updated is kept.
 *
 * It can't be if the store has no session for it, if its pages in memory are fewer than 4, or if its calls may append 65,536 records at most.
 * Then `unwarmed` is called, once for each opening. It works a quarter of memory ahead: so five eighths hold what is live, or more. Pages that are
 * mutable are passed over: if no commit makes them read-only, and all but one page are mutable, nothing is kept.
 * 0; -FKV_HANDLE_TAKEN where it runs already, -FKV_DEVICE (errno) where the system starts none.
 */
int32_t fkv_start(fkv_file *file, const fkv_keeping *keeping);

/* Whether a last commit is made as the keeper's thread ends. */
enum {
    FKV_STOP_NOW = 0,    /* none */
    FKV_STOP_COMMIT = 1, /* one, in any case */
    FKV_STOP_KEEP = 2    /* one, if a session has done something that no commit keeps, and none is joined */
};

/*
 * Ends the keeper's thread, after a last commit if `with_commit` says so. Nothing is committed after it, until the next fkv_start. A
 * thread that another caller starts meanwhile goes on. Sessions that are joined have to refresh or sleep meanwhile, as for each commit:
 * those of other threads as they go on, and those of the calling thread have to have left, or sleep, before. With a last commit it may wait
 * for ever as fkv_commit_and_wait does, for a session of another thread.
 * 0; the fault of the last commit, or -FKV_NO_KEEPER where one is wanted and no thread runs. The thread has ended then too.
 * -FKV_HANDLE_OUT in a hook of that thread; and where the last commit has waited for sessions for a second, and one is joined that the
 * calling thread has joined, or ticked or settled last. The keeper's thread and the commit go on then: call it again once the session has left.
 */
int32_t fkv_stop(fkv_file *file, uint32_t with_commit);

/*
 * Asks for a commit that begins from now on, and tells the ticket by which fkv_wait_commit waits for it.
 * 0; the keeper's fault (fkv_keeper_fault); -FKV_NO_KEEPER.
 */
int32_t fkv_ask_commit(fkv_file *file, uint64_t *ticket);

/*
 * Waits until that commit is finished: what sessions had done when it was asked for survives a crash. `ticket` is of this file.
 * `session` is that of the calling thread. It sleeps meanwhile, so that the commit doesn't wait for its refresh. It is NULL if the thread
 * has none, or its session sleeps. The call may wait for ever as fkv_commit_and_wait does.
 * 0; -FKV_PENDING_LEFT: fkv_settle comes first; the fault of the commit; -FKV_NO_KEEPER where no thread runs any more; in a specified store
 * -FKV_LOG_FULL or -FKV_INDEX_FULL where an update of some session was found to wait for ever, and the commit isn't finished within a second.
 */
int32_t fkv_wait_commit(fkv_file *file, uint64_t ticket, fkv_session *session);

/*
 * fkv_wait_commit for so many milliseconds at most: FKV_PENDING where that commit isn't finished then. It goes on, and may be waited for
 * again. The refusals are those of fkv_wait_commit.
 */
int32_t fkv_wait_commit_for(fkv_file *file, uint64_t ticket, fkv_session *session, uint32_t ms);

/*
 * Settles the session, asks for a commit, and waits until it is finished: all that the session has done survives a crash. What was
 * pending isn't reported. `session` may be NULL. The refusals are those of fkv_settle, fkv_ask_commit and fkv_wait_commit.
 *
 * It may wait for ever: no commit finishes past a session that is awake and doesn't refresh.
 */
int32_t fkv_commit_and_wait(fkv_file *file, fkv_session *session);

/* Asks the keeper for its next turn at once: for who polls a pending request by fkv_poll. The calls that wait do so by themselves. */
void fkv_nudge(fkv_file *file);

/*
 * Why the keeper's thread has no turns or no commits any more, 0 while it has: -FKV_DEVICE where a call of the file has failed,
 * -FKV_VERSIONS_SPENT, -FKV_EPOCHS_SPENT. Close the file and open it anew; a store whose commits are spent stays readable.
 */
int32_t fkv_keeper_fault(fkv_file *file);

/* Of why calls have waited: 0 stands for a read, and each other number is a reason of fkv.h. */
#define FKV_REASONS 6

/* How a store fares since its opening. */
typedef struct {
    uint64_t commits;       /* the number of the last finished commit */
    uint64_t commits_left;  /* so many more the store takes */
    uint64_t commit_us;     /* how long the last one took, in microseconds; 0 before the first since the opening */
    uint64_t commit_bytes;  /* bytes that were written meanwhile */
    uint64_t in_hand_us;    /* how long the commit in hand goes on already, and at least 1; 0 if there is none */
    uint64_t late;          /* a bit for each joined session that fkv_tick and the calls that wait haven't refreshed since it began */
    uint64_t joined;        /* a bit for each session that is joined */
    uint64_t abandoned;     /* a bit for each that was abandoned, and has requests pending */
    uint64_t turns;         /* turns of the keeper */
    uint64_t helped;        /* of which so many were made by threads of sessions that waited */
    uint64_t cold_reads;    /* records that were read back from the file */
    uint64_t fetched;       /* records that the system was asked for ahead of their reads, by fkv_read_many and fkv_read */
    uint64_t kept;          /* records that the library has kept in memory, each by an update of its own session */
    uint64_t file_bytes;    /* bytes of the file */
    uint64_t disk_bytes;    /* bytes that it takes on the disk: what was given back of the log's front takes next to none */
    uint64_t swept;         /* records that sweeps of the log's front have read */
    uint64_t begin;         /* where the log begins: no record below counts any more. The next four are of fkv_offsets */
    uint64_t head;          /* records below it are read from the file */
    uint64_t flushed;       /* records below it are in the file, and synced */
    uint64_t read_only;     /* records below it aren't updated in place */
    uint64_t tail;          /* the next record's address */
    uint64_t overflow;      /* overflow buckets of the index that are taken: calls of a living store take the shape's `overflow`, polls the rest */
    uint64_t entries;       /* entries of the index that were taken at the opening, or as the last full commit since copied it. See below */
    int32_t stopped;        /* what fkv_tick answers of the store, 0 while commits go on */
    uint64_t waited[FKV_REASONS]; /* requests that calls of this header had to wait for: updates by their first reason (FKV_FUZZY ..), reads at 0 */
    uint64_t pending[FKV_REASONS]; /* those of them that are pending just now. See below */
} fkv_stats;

/*
 * Tells how a store fares. A session of `late` may hold the commit in hand up: if it is awake, and its thread makes neither calls that
 * wait nor fkv_refresh. Who calls fkv_refresh or sleeps is called late too.
 *
 * `entries` costs no search: it is what the opening found, and then what each full commit writes. Keys that came later aren't in it, and log
 * commits don't count. An entry is never given back, and `overflow` is of this moment: an update is refused (-FKV_INDEX_FULL) once its bucket
 * is full and calls have taken all overflow buckets that they may. `pending` has the reads and updates that calls of this header wait for. If waiting was
 * refused, they stay in it until a wait or a tick of the session, or the keeper's thread after fkv_abandon, finds that nothing of it is pending.
 * What the calls of fkv.h have left pending isn't in it: each of them told its reason to its caller.
 * 0; -FKV_DEVICE where the system doesn't tell the file's size.
 */
int32_t fkv_stats_of(fkv_file *file, fkv_stats *stats);

/* ---- For who runs the keeper without a thread of this library --------------------------------------------------------------- */

/*
 * Makes the call that a turn has posted, over a descriptor: `call` is what fkv_turn or fkv_io_done has answered. A read goes into `into`.
 * 0, or -1 where it has failed, with errno.
 */
int fkv_call_file(int fd, int32_t call, const fkv_turned *turned, uint8_t into[FKV_MOST_READ]);

/*
 * A whole turn over a descriptor: FKV_OVER or a refusal, as fkv_turn. `*written`, if it isn't NULL, grows by the bytes that were
 * written.
 */
int32_t fkv_turn_file(int fd, fkv_keeper *keeper, fkv_turned *turned, uint64_t *points, size_t room, uint64_t *written);

#ifdef __cplusplus
}
#endif

#endif
