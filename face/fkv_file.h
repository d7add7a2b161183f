/* An open store in a file, as the parts of fkv_posix.h share it. No header of users. */
#ifndef FKV_FILE_H
#define FKV_FILE_H

#include "fkv_posix.h"
#include "fkv_time.h"

#include <pthread.h>
#include <stdatomic.h>
#include <stdbool.h>

/* What is noted of a joined session. It is its thread's, but for `begun` and `thread`, and that all read `waited` and `pending`. */
struct seat {
    uint32_t ticks;                 /* since the last refresh */
    uint32_t phase;                 /* that the last refresh has seen */
    atomic_ullong begun;            /* how many commits had begun by the last refresh that this library made */
    atomic_uintptr_t thread;        /* and which thread made it, or joined */
    atomic_ullong waited[FKV_REASONS]; /* so many calls had to wait, by their reasons: since the opening, whoever had the session */
    atomic_uint pending[FKV_REASONS]; /* of these so many requests are pending, unless a poll of somebody else has finished them */
    char apart[104 - 12 * FKV_REASONS]; /* each seat has two cache lines of its own */
};

/* All bytes of a file, in memory of their own or mapped: for munmap. */
struct bytes {
    uint8_t *at;
    size_t size;
};

/* A turn of the keeper: what it has done so far. */
struct turn {
    fkv_turned turned;
    uint64_t points[FKV_MOST_SESSIONS];
    uint64_t written; /* bytes */
    uint64_t end;     /* the furthest place that was written */
    uint64_t reads;   /* records that were read back */
    uint64_t swept;   /* records that a sweep has read */
    uint64_t copied;  /* entries of the index that were written, as a full commit writes all */
    int why;          /* errno of the call of the file that has failed */
    bool has_called;  /* it has called the file, so the next turn may have something to do */
    bool rests;       /* the writes of the commit in hand rest behind it, or a flush does */
};

/* How long a session waits already, with nothing of it finished. */
struct patience {
    struct timespec begun;
    uint64_t turns; /* how many had been made by then */
    uint32_t of;    /* a bit for each session that waits */
};

/* Keys that reads of one session have found in the file alone. Its thread puts them, and the keeper's thread takes them. */
enum { FOUND_KEYS = 64 };

struct found {
    atomic_uint put; /* so many were ever put, and taken */
    atomic_uint taken;
    uint64_t keys[FOUND_KEYS];
};

/* How far the library's session has come with keeping memory warm. It is the keeper's thread's; without one it is whoever's has the file alone. */
struct warmer {
    bool is_on;              /* wanted and possible, since the thread began */
    bool is_awake;           /* requests of the session are pending, so it has to refresh */
    bool has_more;           /* there is something to do, from `rests_until` on */
    bool is_crowded;         /* memory has no room for the newest record of each home */
    unsigned turn;           /* the session whose keys come next */
    uint64_t next;           /* the record that it looks at next. It stays over a stop of the thread */
    uint64_t begun;          /* where the log ended as the thread began */
    uint64_t serial;         /* of the session's last update */
    uint64_t first;          /* and of the last one before the opening */
    uint64_t trimmed;        /* so many since then were of keys that a sweep wanted */
    bool was_begun;          /* `first` is known */
    uint64_t since;          /* from that record on so many were looked at, and so many of these were the newest of their homes */
    uint64_t looked, newest;
    struct timespec waits;   /* since then nothing of its requests was finished */
    struct timespec rests_until;
};

/* What is known of the log's front, which is to be given back. It is the keeper's thread's. */
struct trimmer {
    uint64_t begin;   /* where the newest finished commit's log begins, as far as the thread has seen */
    uint64_t punched; /* all below was given back */
    uint64_t end;     /* where the last sweep that was asked for ends, about */
    size_t wanted;    /* so many keys wait to be kept */
    uint64_t keys[FKV_MOST_WANTED];
    bool is_on;       /* a commit was asked for behind which turns sweep, and none has moved the begin yet */
    bool is_next;     /* the commit in hand is such a one */
    bool is_keeping;  /* keys were kept, and may wait still */
    bool has_read;    /* the last turn that swept has read something */
    bool has_more;    /* the next one has something to do */
    bool is_done;     /* the last one has found nothing to do: the next commit moves the begin */
    bool is_spent;    /* what was wanted couldn't be kept: nothing is swept any more, until the thread begins anew */
    bool waits;       /* the file system gives nothing back before the next commit is finished */
    int why;          /* errno where it never does, or 0 */
};

struct fkv_file {
    int fd;
    char *path; /* without links; NULL where the system didn't say */
    uint32_t keys; /* how they are placed: see fkv_open */
    uint64_t warm; /* how many records an opening gives memory: see fkv_open */
    uint64_t log_bytes; /* that were wished for the log, or 0 */
    fkv_shape shape; /* with the sessions of users alone, and all overflow buckets */
    bool is_living;  /* its calls leave room to its polls, so that none of these ever finds it full */
    bool has_own;    /* the session behind those of users is the library's */
    fkv_store store;
    fkv_keeper keeper; /* of whoever has the turn, and so are the next seven */
    uint64_t writes;   /* how many writes of the file turns have begun */
    uint64_t synced;   /* all of the first so many are durable */
    int sync_why;      /* errno of a sync of them that has failed, which isn't told yet, or 0 */
    bool is_mapped;    /* records are read back by a mapping, as long as the system gives one */
    struct bytes map;  /* of the file, and of bytes behind it that it hasn't yet */
    unsigned near;     /* so many reads more count as near to one that has waited for a disk */
    bool hides_waits;  /* the file system doesn't tell which reads wait for a disk */
    /* A joined session is its thread's, an abandoned one the keeper's thread's, and the others are whoever's has the lock. */
    fkv_session sessions[FKV_MOST_SESSIONS];
    struct seat seats[FKV_MOST_SESSIONS];
    /* Each call of a session reads its word, and what follows is written at each turn: not on one cache line. */
    char apart[64];

    /* These are written under the lock, and read without it too. */
    atomic_bool turning;     /* somebody has the turn: makes one, or begins a commit */
    atomic_bool in_hand;     /* a commit has begun and isn't finished */
    atomic_int ends;         /* what fkv_tick answers */
    atomic_bool is_behind;   /* the library's session hurries to keep what is about to leave memory. (without the lock) */
    atomic_ullong begun;     /* how many commits have begun since the opening */
    atomic_int why;          /* errno of a fault that is -FKV_DEVICE. It is written before `ends` */
    /* These are written by who has the turn, and by sessions that read. */
    atomic_uint slow;        /* so many reads more are asked for ahead: some of the last have waited for a disk */
    atomic_ullong fetched;   /* records that the system was asked for ahead of their reads */
    char apart_too[64];      /* what the keeper's thread writes often, away from what each tick reads */
    /* These are written by the keeper's thread, and the second one by sessions that have read too. */
    atomic_ullong warmed;    /* records below it may leave memory: UINT64_MAX where nobody keeps them */
    atomic_bool has_found;   /* some session has found keys in the file alone */
    atomic_ullong kept;      /* updates that the library's session has made */
    struct warmer warmer;
    struct trimmer trimmer;
    struct found found[FKV_MOST_SESSIONS];

    pthread_mutex_t lock;  /* of all that follows */
    pthread_cond_t work;   /* the keeper's thread waits for it: something is asked */
    pthread_cond_t over;   /* who wants the turn and can't do without waits for it: a turn is over */
    pthread_cond_t served; /* sessions wait for it: a turn has called the file */
    pthread_cond_t news;   /* others wait for it: a commit has ended, or the thread */
    uint64_t begin;        /* of the trimmer, and how many records sweeps have read, as fkv_stats tells them */
    uint64_t swept;
    bool is_wanted;        /* somebody waits for the turn, so nobody else takes it before */
    uint32_t waiting;      /* how many sessions wait to be served */
    uint32_t joined;       /* a bit for each session that is joined */
    uint32_t abandoned;    /* and for each that was abandoned, and has requests pending */
    bool was_joined;       /* some session was, since the last commit began */
    bool is_renewed;       /* it is renewed in place: nobody joins meanwhile */
    uint64_t most_commits; /* that its store takes in all its life */
    uint64_t entries;      /* of the index that were taken by the opening, or by the last full commit since */
    uint64_t number;       /* the last finished commit, and its points */
    uint64_t points[FKV_MOST_SESSIONS];

    pthread_t thread;
    uint64_t run;      /* how many threads were started: who ends one ends no later one */
    bool runs;         /* the thread itself resets it as it ends */
    bool stops;        /* it is to end */
    bool has_told_unwarmed; /* the hook `unwarmed` was called */
    bool has_told_untrimmed; /* and `untrimmed`, that nothing can be given back */
    bool has_told_long;      /* and that the log grows faster than it is swept */
    bool nudged;       /* a turn is wanted at once */
    bool is_stirred;   /* something was asked or done since the keeper's last turn */
    bool rests;        /* the writes of the commit in hand rest before a sync, or a flush does */
    bool is_syncing;   /* which the keeper's thread makes, without the turn: others serve meanwhile */
    uint64_t asked;    /* the last ticket that was given */
    uint64_t covers;   /* tickets up to this one are served by the commit in hand */
    uint64_t finished; /* and up to this one they are served */
    int32_t fault;     /* 0 while there are turns and commits */
    int32_t full;      /* -FKV_LOG_FULL once an update was refused by it */
    bool index_full;   /* an update was refused by the index */
    int32_t stuck;     /* of a specified store: an update seems to wait for ever, by -FKV_LOG_FULL or -FKV_INDEX_FULL. Then no commit is finished; else it was wrong */
    fkv_keeping keeping;

    uint64_t turns;        /* that have ended well, since the opening */
    uint64_t called;       /* turns that have called the file */
    uint64_t helped;       /* turns that sessions' threads made */
    uint64_t cold_reads;   /* records that were read back */
    uint64_t log_end;      /* the furthest place of the file that was written */
    uint64_t commit_us;    /* how long the last finished commit took */
    uint64_t commit_bytes; /* and what it has written */
    struct timespec commit_begun;
};

/* Shows all bytes of a file as they are now. Who wants those that a crash leaves syncs it before. 0; -FKV_NOT_A_STORE, -FKV_MEMORY, -FKV_DEVICE. */
int32_t fkv_show_bytes(int fd, const fkv_how *how, struct bytes *shown);

/* Opens and locks a file. Its descriptor, or -1 with errno. */
int fkv_open_locked(const char *path);

/* Writes what a new file is to have into its descriptor. 0, or -1 with errno. */
typedef int fill_fn(void *its, int fd);

/* Makes a file: it is filled and synced under another name, and then put in place, where no file may be. 0, or -1 with errno. */
int fkv_make_beside(const char *path, fill_fn *fill, void *its);

/* The same in place of the file that has the name. It is locked then: its descriptor, or -1 with errno. The folder isn't synced. */
int fkv_make_over(const char *path, fill_fn *fill, void *its);

/* Makes a name in a folder durable. A folder that can't be read can't be synced. 0, or -1 with errno. */
int fkv_sync_folder_of(const char *path);

/*
 * Renews a store's bytes into `new`, of which `renewed->size` are the store's. The point of the library's session is set back in the old ones,
 * and `shape` has the sessions of users alone. 0, or the refusals of fkv_renew.
 */
int32_t fkv_renew_bytes(struct bytes old, const fkv_shape *shape, uint32_t keys, fkv_renewed *renewed, struct bytes *new);

/* Gives such bytes back, if there are some. errno stays. */
void fkv_give_bytes(struct bytes *bytes);

/* For fkv_make_beside: writes bytes, a struct of them. */
int fkv_write_bytes(void *its, int fd);

/* Opens the store of these bytes, which no file has yet. 0, or the refusals of fkv_open. */
int32_t fkv_open_bytes(const struct bytes *bytes, uint32_t keys, uint64_t warm, fkv_file **out);

/* Gives back what was taken and opened, and closes the file. */
void fkv_give_up(fkv_file *file);

/* The bytes of the file before the log's record of address 0, which there is none of. */
uint64_t fkv_log_place(const fkv_shape *shape);

/* ---- Of what a living file has beside what was asked for ------------------------------------------------------------------------------ */

/* Whether the store of these bytes is a living one. They are a store's. */
bool fkv_is_living(const uint8_t *bytes);

/* The shape of a file for one that was asked for: it has one session more. 0, or -FKV_BAD_SHAPE where so many can't be asked for. */
int32_t fkv_with_own(const fkv_shape *asked, fkv_shape *shape);

/* What a file is made of for a shape that was asked for: it has one session more, and overflow buckets that its calls leave to its polls. */
fkv_shape fkv_made_of(const fkv_shape *asked);

/* The shape that an open file was asked for, as it is made now: of an older one fewer overflow buckets may be left than it was. */
fkv_shape fkv_asked_of(const fkv_file *file);

/* Records that calls take at most in a file for this shape: they leave the log's last ones to its polls too. */
uint64_t fkv_records_of(const fkv_shape *asked);

/* Takes the last session of a store that was just opened for the library, if it has one for it: users are told of the others alone. */
void fkv_take_own(fkv_file *file, bool is_living);

/* Takes the library's session out of a commit's points, of which there are FKV_MOST_SESSIONS. */
void fkv_hide_own(const fkv_file *file, uint64_t *points);

/* Sets the point of the library's session back to 0 in a store's bytes, before they are renewed: its place may be another one in the new store. */
void fkv_forget_own(struct bytes bytes);

/* ---- Of memory that is kept warm, by the library's session. The lock isn't held, but where it is said. ---------------------------------- */

/* Whether that can be in this store. */
bool fkv_can_warm(const fkv_file *file);

/* A run of the keeper's thread begins. The lock is held. */
void fkv_begin_warming(fkv_file *file);

/* Does some of it, in the keeper's thread before a turn. `has_time` is false where a commit waits for sessions: then only what can't wait. */
void fkv_warm(fkv_file *file, bool has_time);

/* Finishes what is pending of the session, as far as that is possible now. Nobody else has it. */
void fkv_rest_own(fkv_file *file);

/* Whether a turn should be left to the keeper's thread: records would leave memory that it hasn't come to. The lock is held. */
bool fkv_awaits_warmer(fkv_file *file);

/* A read of this session has found the key in the file alone. */
void fkv_note_found(fkv_file *file, const fkv_session *session, uint64_t key);

/* Whether the library's session may keep so many records more as it does at once: it hasn't had its share of the log. */
bool fkv_has_share(const fkv_file *file);

/* Keeps the records of these keys by the library's session, nothing of which is pending. Gives how many were taken. */
size_t fkv_keep_own(fkv_file *file, const uint64_t *keys, size_t count);

/* ---- Of the log's front. The keeper's thread calls, with the turn or the lock. ---------------------------------------------------------- */

/* Whether it can be given back in this store. */
bool fkv_can_trim(const fkv_file *file);

/* A run of the keeper's thread begins. */
void fkv_begin_trimming(fkv_file *file);

/* Whether the next commit should be one behind which turns sweep: the log is longer than it may be. */
bool fkv_wants_trim(fkv_file *file);

/* How long a commit by the clock waits for turns that sweep, behind the one before, in microseconds: 0 unless the log is half as long again as it may be. */
uint64_t fkv_sweeps_us(fkv_file *file);

/* Whether the log's length has a limit. */
bool fkv_limits_log(const fkv_file *file);

/* Whether the log is four times as long as it may be. */
bool fkv_is_too_long(fkv_file *file);

/* A commit has begun, which is one of these or isn't. */
void fkv_note_trim(fkv_file *file, bool trims);

/* Whether turns may sweep now. The lock is held. */
bool fkv_has_sweep(const fkv_file *file);

/* Whether a turn that sweeps would get on: no key that was wanted waits to be kept. The keeper's thread calls. */
bool fkv_may_sweep(const fkv_file *file);

/* Notes what a turn has found that swept. */
void fkv_note_swept(fkv_file *file, const struct turn *turn);

/* Nothing of the library's session waits any more, or something still does. Without the turn. */
void fkv_note_kept(fkv_file *file);

/* Has the library's session keep the keys that are wanted. Without the turn. */
void fkv_keep_wanted(fkv_file *file);

/* A commit was finished: its log may begin further on. */
void fkv_note_begin(fkv_file *file);

/* A full commit was finished, which has counted the index's entries: the log may have more room than was known. */
void fkv_note_entries(fkv_file *file);

/* Whether there is something of the front to give back, and the file system may take it. */
bool fkv_gives_back(const fkv_file *file);

/* Gives a piece of it back. 0, or errno the one time that the file system can't. */
int fkv_give_back(fkv_file *file);

/* ---- Of records that the file alone has. The lock isn't held. --------------------------------------------------------------- */

/* Reads a record by a mapping of the file. False where it can't, and then it is to be read otherwise. The caller has the turn. */
bool fkv_read_mapped(fkv_file *file, uint64_t place, uint8_t into[FKV_READ_SIZE]);

/* Gives the mapping back. The next read makes it anew. The caller has the turn. */
void fkv_drop_map(fkv_file *file);

/* Reads a record that a turn has asked for, and notes whether a disk was waited for. 0, or -1 with errno. The caller has the turn. */
int fkv_read_record(fkv_file *file, const fkv_turned *turned, uint8_t into[FKV_MOST_READ]);

/*
 * Asks the system for the records of keys that will be read next, if its last reads had to wait for a disk. Of `count` keys those from `at` on
 * are to be read, and those below `fetched` were asked for. Up to which key they are asked for then.
 */
size_t fkv_fetch_ahead(fkv_file *file, fkv_session *session, const uint64_t *keys, size_t count, size_t at, size_t fetched);

/*
 * The same of one key that was just read and waits, if another thread has the turn: it reads for others before, and the disk would be idle for
 * this one meanwhile. Without one the reader's own turn reads it at once.
 */
void fkv_fetch_alone(fkv_file *file, fkv_session *session, uint64_t key);

/* ---- Of turns. The lock is held, but for the next two. -------------------------------------------------------------------------- */

typedef void tell_turn_fn(void *user, const struct turn *turn);

/* Makes a turn, which the caller has, with its calls of the file. `tell`, if it isn't NULL, hears of each. FKV_OVER or a refusal. */
int32_t fkv_make_turn(fkv_file *file, struct turn *turn, tell_turn_fn *tell, void *user);

/* The same of a turn that goes on with nothing that rests: it only serves then. */
int32_t fkv_serve_turn(fkv_file *file, struct turn *turn, tell_turn_fn *tell, void *user);

/* The same, but that a sweep of the log's front goes on. */
int32_t fkv_sweep_turn(fkv_file *file, struct turn *turn, tell_turn_fn *tell, void *user);

/*
 * Makes the sync before which the writes of a commit or a flush rest, without the turn. Who waits meanwhile serves by himself. The lock is held, but
 * while it is made.
 */
void fkv_sync_ahead(fkv_file *file);

/*
 * A turn in the thread of a session that waits. 1 where it was made; 0 where another thread has the turn, or has to make it; why nobody
 * serves requests.
 */
int32_t fkv_help(fkv_file *file);

/* Takes the turn, and waits for it. */
void fkv_take_turn(fkv_file *file);

/* Gives it back without having made one. */
void fkv_give_turn(fkv_file *file);

/* Notes what a turn has come to, and gives it back. */
void fkv_end_turn(fkv_file *file, const struct turn *turn, int32_t result);

/* ---- Of what a store has come to. The lock is held. ----------------------------------------------------------------------------- */

/* Where commits are spent turns go on; where turns are refused they are refused for good. */
bool fkv_has_turns(const fkv_file *file);

/* From now on there are no commits, or no turns either, and nobody waits for one. The commit in hand is never finished. */
void fkv_note_fault(fkv_file *file, int32_t fault, int why);

/* The log has no room and will have none, or an update has found none in the index. */
void fkv_note_full(fkv_file *file, int32_t fault);

/* Finds out anew what fkv_tick answers. */
void fkv_find_end(fkv_file *file);

/* The wait begins, or begins anew: something was finished. */
void fkv_begin_patience(const fkv_file *file, struct patience *its, uint32_t of);

/* Whether what waits will wait for ever: -FKV_LOG_FULL or -FKV_INDEX_FULL, or 0. In a living store nothing does. */
int32_t fkv_never_room(const fkv_file *file, const struct patience *its);

/* An update seems to wait for ever, for this fault. 0 says nothing. */
void fkv_note_stuck(fkv_file *file, int32_t fault);

/* Why nobody serves a commit, or 0. */
int32_t fkv_refusal(const fkv_file *file);

/* Why nobody serves requests, or 0: they are served too where commits alone are spent. */
int32_t fkv_unserved(const fkv_file *file);

/* Starts the keeper's thread. 0, or why the system starts none. */
int fkv_begin_run(fkv_file *file, const fkv_keeping *keeping);

/* Whether the keeper's thread calls. */
bool fkv_is_own_thread(const fkv_file *file);

/* Whether a session that isn't joined has given serials that no commit keeps. */
bool fkv_has_unkept(fkv_file *file);

/* ---- The lock isn't held. ------------------------------------------------------------------------------------------------------- */

/*
 * A result of a call that another thread may have made, with that call's errno: each thread has its own. Who has seen -FKV_DEVICE under
 * the lock sees this errno too, which stays.
 */
int32_t fkv_with_errno(const fkv_file *file, int32_t result);

/* fkv_stop, of another thread than the keeper's. */
int32_t fkv_stop_thread(fkv_file *file, uint32_t with_commit);

/* Polls until nothing is pending, up to a time if there is one. If requests are left then, the answer is FKV_PENDING. */
int32_t fkv_settle_until(fkv_file *file, fkv_session *session, const struct timespec *until, fkv_finished_fn *report, void *user);

/* Lets the library's session go first while it hurries. A session that is about to update refreshes meanwhile. 0, or -FKV_ASLEEP. */
int32_t fkv_give_way(fkv_file *file, fkv_session *session);

/* Refreshes a session, and notes what it has seen. */
int32_t fkv_refresh_seat(fkv_file *file, fkv_session *session);

/* Notes that nothing of a session is pending. Whoever has the session calls. */
void fkv_note_settled(fkv_file *file, const fkv_session *session);

/* Makes turns until nothing of what was abandoned is pending, or that can't be, or a second has passed. No thread runs, and none begins. */
void fkv_end_abandoned(fkv_file *file);

#endif
