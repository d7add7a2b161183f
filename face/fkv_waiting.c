/* Who waits: for requests that are pending, and for commits. */
#define _POSIX_C_SOURCE 200809L
#include "fkv_file.h"

#include <errno.h>

enum {
    /* A session that waits polls so long, and makes the turns that it wants by itself. */
    SPIN_US = 50,
    /* Then it rests so long between two polls, unless a turn has called the file. What waits for long is held up by something else. */
    WAIT_US = 50,
    LONG_US = 5000,
    LONG_WAIT_US = 500,
    /* It refreshes at each of so many polls. */
    REFRESH_EACH = 4,
    /* The clock is asked from so many polls on. */
    FIRST_POLLS = 8,
    PAUSES = 20,
    /* An update lets the library's session go first, for so long at most. It takes one record, and the next update lets it go first again. */
    GIVES_WAY_US = 3000,
    /* Who waits for a commit that can't be finished, since an update waits for ever, is told so then. */
    STUCK_US = 1000000
};

static uint32_t bit_of(const fkv_file *file, const fkv_session *session) {
    return UINT32_C(1) << (session - file->sessions);
}

/* ---- Requests ------------------------------------------------------------------------------------------------------------------- */

int32_t fkv_refresh_seat(fkv_file *file, fkv_session *session) {
    struct seat *seat = &file->seats[session - file->sessions];
    fkv_seen seen;
    unsigned long long begun = atomic_load(&file->begun);
    int32_t result = fkv_refresh(session, &seen);
    if (result < 0) return result;
    seat->ticks = 0;
    seat->phase = (uint32_t)seen.phase;
    atomic_store_explicit(&seat->begun, begun, memory_order_relaxed);
    atomic_store_explicit(&seat->thread, (uintptr_t)pthread_self(), memory_order_relaxed);
    return 0;
}

void fkv_note_settled(fkv_file *file, const fkv_session *session) {
    struct seat *seat = &file->seats[session - file->sessions];
    for (int i = 0; i < FKV_REASONS; i++) atomic_store_explicit(&seat->pending[i], 0, memory_order_relaxed);
}

static void pause_a_little(void) {
    for (int i = 0; i < PAUSES; i++) {
#if defined(__x86_64__) || defined(__i386__)
        __builtin_ia32_pause();
#else
        atomic_signal_fence(memory_order_seq_cst);
#endif
    }
}

/* Waits until a turn has called the file, or for a short time. Why nothing will ever come of it, or 0. */
static int32_t wait_for_turn(fkv_file *file, const struct patience *its, uint64_t waited) {
    struct timespec until = fkv_later(fkv_now(), waited < LONG_US ? WAIT_US : LONG_WAIT_US);
    pthread_mutex_lock(&file->lock);
    file->waiting++;
    pthread_cond_timedwait(&file->served, &file->lock, &until);
    file->waiting--;
    int32_t never = fkv_never_room(file, its);
    fkv_note_stuck(file, never);
    pthread_mutex_unlock(&file->lock);
    return never;
}

int32_t fkv_give_way(fkv_file *file, fkv_session *session) {
    struct timespec begun = fkv_now();
    int32_t result = 0;
    while (result == 0 && fkv_since(begun) < GIVES_WAY_US) {
        struct timespec until = fkv_later(fkv_now(), WAIT_US);
        pthread_mutex_lock(&file->lock);
        bool is_behind = atomic_load(&file->is_behind) && !fkv_unserved(file);
        file->waiting++;
        if (is_behind) pthread_cond_timedwait(&file->served, &file->lock, &until);
        file->waiting--;
        pthread_mutex_unlock(&file->lock);
        if (!is_behind) return 0;
        result = fkv_refresh_seat(file, session);
    }
    return result;
}

/* Between two polls. `helped` says whether this thread has made a turn meanwhile. */
static int32_t bide(fkv_file *file, const struct patience *its, unsigned polls, bool helped) {
    uint64_t waited = polls < FIRST_POLLS ? 0 : fkv_since(its->begun);
    if (waited >= SPIN_US) return wait_for_turn(file, its, waited);
    if (!helped) pause_a_little();
    return 0;
}

static void begin_patience(fkv_file *file, struct patience *its, uint32_t of) {
    pthread_mutex_lock(&file->lock);
    fkv_begin_patience(file, its, of);
    pthread_mutex_unlock(&file->lock);
}

/* Why nobody serves requests, or 0. */
static int32_t not_served(fkv_file *file) {
    pthread_mutex_lock(&file->lock);
    int32_t why = fkv_unserved(file);
    pthread_mutex_unlock(&file->lock);
    return fkv_with_errno(file, why);
}

int32_t fkv_settle_until(fkv_file *file, fkv_session *session, const struct timespec *until, fkv_finished_fn *told, void *user) {
    fkv_finished finished[FKV_MOST_PENDING];
    struct patience patience = {.of = 0};
    /* A request that lost to another session is mostly finished by the first poll. What is left then waits for a turn, or a refresh. */
    for (unsigned polls = 0;; polls++) {
        uint64_t count = 0;
        int32_t left = fkv_poll(session, finished, FKV_MOST_PENDING, &count);
        for (uint64_t i = 0; i < count && told; i++) told(user, &finished[i]);
        if (left == 0) fkv_note_settled(file, session);
        if (left <= 0) return left;
        if (polls == FIRST_POLLS || (polls > FIRST_POLLS && count > 0)) begin_patience(file, &patience, bit_of(file, session));
        if (until && !fkv_is_before(fkv_now(), *until)) {
            int32_t why = not_served(file);
            return why < 0 ? why : FKV_PENDING;
        }
        int32_t helped = fkv_help(file);
        if (helped < 0 && polls > 0) return helped;
        int32_t result = polls % REFRESH_EACH == 1 ? fkv_refresh_seat(file, session) : 0;
        if (result == 0) result = bide(file, &patience, polls, helped > 0);
        if (result < 0) return result;
    }
}

int32_t fkv_settle(fkv_file *file, fkv_session *session, fkv_finished_fn *told, void *user) {
    return fkv_settle_until(file, session, NULL, told, user);
}

int32_t fkv_settle_for(fkv_file *file, fkv_session *session, uint32_t ms, fkv_finished_fn *told, void *user) {
    struct timespec until = fkv_later(fkv_now(), UINT64_C(1000) * ms);
    return fkv_settle_until(file, session, &until, told, user);
}

/* ---- Commits -------------------------------------------------------------------------------------------------------------------- */

int32_t fkv_ask_commit(fkv_file *file, uint64_t *ticket) {
    pthread_mutex_lock(&file->lock);
    int32_t result = fkv_refusal(file);
    if (result == 0) {
        *ticket = ++file->asked;
        file->nudged = true;
        pthread_cond_signal(&file->work);
    }
    pthread_mutex_unlock(&file->lock);
    return fkv_with_errno(file, result);
}

/* How a wait for a commit goes on: 0 while it isn't finished and may be, FKV_PENDING where the time is over, or the refusal. */
static int32_t commit_refusal(const fkv_file *file, struct timespec begun, const struct timespec *until) {
    int32_t why = fkv_refusal(file);
    if (why) return why;
    if (file->stuck && fkv_since(begun) >= STUCK_US) return file->stuck;
    return until && !fkv_is_before(fkv_now(), *until) ? FKV_PENDING : 0;
}

/* Waits until the commit is finished, up to a time if there is one. If it isn't finished then, the answer is FKV_PENDING. */
static int32_t wait_commit(fkv_file *file, uint64_t ticket, fkv_session *session, const struct timespec *until) {
    struct timespec begun = fkv_now();
    int32_t result = 0;
    int32_t slept = session ? fkv_sleep(session) : -FKV_ASLEEP;
    if (slept < 0 && slept != -FKV_ASLEEP) return slept;
    pthread_mutex_lock(&file->lock);
    while (file->finished < ticket && (result = commit_refusal(file, begun, until)) == 0) {
        /* (that an update is stuck counts after a while, so it looks again) */
        struct timespec look = fkv_later(fkv_now(), STUCK_US);
        if (until && fkv_is_before(*until, look)) look = *until;
        pthread_cond_timedwait(&file->news, &file->lock, &look);
    }
    if (file->finished >= ticket) result = 0;
    pthread_mutex_unlock(&file->lock);
    if (slept == 0) {
        fkv_seen seen;
        fkv_wake(session, &seen);
    }
    return fkv_with_errno(file, result);
}

int32_t fkv_wait_commit(fkv_file *file, uint64_t ticket, fkv_session *session) { return wait_commit(file, ticket, session, NULL); }

int32_t fkv_wait_commit_for(fkv_file *file, uint64_t ticket, fkv_session *session, uint32_t ms) {
    struct timespec until = fkv_later(fkv_now(), UINT64_C(1000) * ms);
    return wait_commit(file, ticket, session, &until);
}

int32_t fkv_commit_and_wait(fkv_file *file, fkv_session *session) {
    uint64_t ticket = 0;
    int32_t result = session ? fkv_settle(file, session, NULL, NULL) : 0;
    /* A session that sleeps has nothing pending. */
    if (result < 0 && result != -FKV_ASLEEP) return result;
    result = fkv_ask_commit(file, &ticket);
    return result < 0 ? result : fkv_wait_commit(file, ticket, session);
}

void fkv_nudge(fkv_file *file) {
    pthread_mutex_lock(&file->lock);
    file->nudged = true;
    pthread_cond_signal(&file->work);
    pthread_mutex_unlock(&file->lock);
}

int32_t fkv_keeper_fault(fkv_file *file) {
    pthread_mutex_lock(&file->lock);
    int32_t fault = file->fault;
    pthread_mutex_unlock(&file->lock);
    return fkv_with_errno(file, fault);
}
