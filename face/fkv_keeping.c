/* The keeper's thread: its turns, a commit now and then, its start and its end. */
#define _POSIX_C_SOURCE 200809L
#include "fkv_file.h"

#include <errno.h>
#include <signal.h>
#include <string.h>
#include <sys/prctl.h>

enum {
    /* Between two turns when nothing is to be done, unless the caller says how long. */
    USUAL_TURN_US = 500,
    /* While a commit runs: it waits for sessions, which refresh every few microseconds. */
    COMMIT_TURN_US = 50,
    /*
     * So long a commit makes haste, and its turns follow sooner, up to its first write. Until then it waits four times for all sessions.
     * Their updates go the long way meanwhile, or wait too. The keeper sleeps between two turns all the same. If each processor has a
     * session's thread, it may stand in the way of the one that it waits for.
     */
    HASTE_US = 500,
    HASTE_TURN_US = 20,
    /* A turn of a full commit that takes so long has copied a part of the index. */
    COPY_TURN_US = 40,
    /* So long a commit waits for turns that sweep the log's front, behind the one before. */
    SWEEPS_US = 10000,
    /* While no session is joined, which is told at once. */
    IDLE_TURN_US = 100000,
    /* While sessions are joined and nothing happens, rests grow after so many turns, up to so long. Who waits for a turn makes it. */
    IDLE_TURNS = 64,
    IDLE_SESSION_US = 20000,
    /* Between two turns for what was abandoned, as a file is closed. */
    ABANDONED_TURN_US = 20,
    /* A file that is closed waits so long for what was abandoned: a full index or log lets it wait for ever. */
    ABANDONED_US = 1000000,
    /* A commit is held up by sessions, where nothing of it goes on for so long and so many turns. */
    HELD_UP_MS = 1000,
    HELD_UP_TURNS = 100,
    MOST_MS = 1000000000
};

/* A run of the keeper's thread. Nobody else has it. */
struct run {
    fkv_file *file;
    struct timespec next;  /* when the next commit by the clock is due */
    struct timespec haste; /* up to then the commit in hand makes haste */
    struct timespec sweeps; /* up to then the next commit waits for turns that sweep */
    struct timespec longer; /* and up to then, if it is one by the clock */
    struct patience tends; /* with what was abandoned */
    uint32_t log_left;     /* so many log commits before the next full one */
    uint64_t written;      /* bytes, since the commit in hand began */
    uint64_t copied;       /* entries that it has written */
    bool is_full;          /* it writes them all */
    uint32_t idle;         /* so many turns in a row had nothing to do */
    bool has_called;       /* by the last turn the next one may have something to do, which nobody else does */
    uint64_t helped;       /* turns that sessions' threads had made by the last turn */
    bool is_put_off;       /* a commit was due, and has to wait for more turns */
    bool has_told;         /* the hook `stopped` was called */
    bool was_long;         /* the log was too long as the last commit began */
};

/* ---- Commits. The file's lock is held, and begin_commit's caller has the turn. -------------------------------------------------- */

/* Whether the next commit begins at its time, without being asked for. */
static bool goes_by_clock(const fkv_file *file) {
    return !file->in_hand && !file->fault && file->keeping.commit_ms > 0 && file->was_joined;
}

static bool is_due(const struct run *run) {
    const fkv_file *file = run->file;
    if (file->in_hand || file->fault) return false;
    /* Turns sweep with no commit in hand alone. If commits follow one another, they leave them some time. */
    struct timespec now = fkv_now();
    bool sweeps = fkv_has_sweep(file) && file->trimmer.has_more;
    if (file->asked > file->covers) return !sweeps || !fkv_is_before(now, run->sweeps);
    return goes_by_clock(file) && !fkv_is_before(now, run->next) && (!sweeps || !fkv_is_before(now, run->longer));
}

/* The commits that were asked for until now are served by the one that has begun. */
static void note_begun(struct run *run) {
    fkv_file *file = run->file;
    file->in_hand = true;
    file->begun++;
    file->covers = file->asked;
    file->was_joined = (file->joined | file->abandoned) != 0;
    file->commit_begun = fkv_now();
    run->written = run->copied = 0;
    run->next = fkv_later(file->commit_begun, (uint64_t)file->keeping.commit_ms * 1000);
    run->haste = fkv_later(file->commit_begun, HASTE_US);
}

/* Begins a commit where one is due. True where it has begun. */
static bool begin_commit(struct run *run) {
    fkv_file *file = run->file;
    uint64_t number;
    run->is_put_off = false;
    if (!is_due(run)) return false;
    bool trims = fkv_wants_trim(file), is_long = fkv_is_too_long(file);
    /* How long it may be goes by the entries that a full commit counts. */
    if (is_long && !run->was_long) run->log_left = 0;
    run->was_long = is_long;
    bool is_log = !trims && run->log_left > 0;
    int32_t result = fkv_commit(&file->keeper, trims ? FKV_TRIM : is_log ? FKV_LOG : FKV_FULL, &number);
    if (result == -FKV_LOST_FULL) {
        is_log = false;
        result = fkv_commit(&file->keeper, FKV_FULL, &number);
    }
    if (result == 0) {
        fkv_note_trim(file, trims);
        run->log_left = is_log ? run->log_left - 1 : file->keeping.log_commits;
        run->is_full = !is_log;
        note_begun(run);
        return true;
    }
    /* Either of these goes away with turns. */
    run->is_put_off = result == -FKV_DRAIN_FULL || result == -FKV_COMMIT_RUNNING;
    if (!run->is_put_off) fkv_note_fault(file, result, 0);
    return false;
}

/* A store that has taken its last commit says so at once. */
static void note_finished(struct run *run, const struct turn *turn) {
    fkv_file *file = run->file;
    file->finished = file->covers;
    file->number = turn->turned.number;
    file->commit_us = fkv_since(file->commit_begun);
    file->commit_bytes = run->written;
    file->begin = file->trimmer.begin;
    if (run->is_full) {
        file->entries = run->copied;
        fkv_note_entries(file);
    }
    memcpy(file->points, turn->points, sizeof file->points);
    file->stuck = 0;
    run->sweeps = fkv_later(fkv_now(), SWEEPS_US);
    run->longer = fkv_later(fkv_now(), fkv_sweeps_us(file));
    fkv_find_end(file);
    pthread_cond_broadcast(&file->news);
    if (file->number >= file->most_commits) fkv_note_fault(file, -FKV_VERSIONS_SPENT, 0);
}

/* ---- What was abandoned --------------------------------------------------------------------------------------------------------- */

/*
 * Polls and refreshes the sessions that were abandoned, of which nobody else has one, and puts those to sleep that have nothing pending.
 * Gives the others, and adds how many requests were finished. The lock isn't held.
 */
static uint32_t tend(fkv_file *file, uint32_t abandoned, uint64_t *done) {
    fkv_finished finished[FKV_MOST_PENDING];
    fkv_seen seen;
    uint32_t left = abandoned;
    for (int i = 0; i < FKV_MOST_SESSIONS; i++) {
        uint64_t count = 0;
        if (!(abandoned >> i & 1)) continue;
        fkv_poll(&file->sessions[i], finished, FKV_MOST_PENDING, &count);
        fkv_refresh(&file->sessions[i], &seen);
        if (fkv_sleep(&file->sessions[i]) != -FKV_PENDING_LEFT) {
            fkv_note_settled(file, &file->sessions[i]);
            left &= ~(UINT32_C(1) << i);
        }
        *done += count;
    }
    return left;
}

/* Tends them. Where nothing of them is finished for long, they wait for ever. The lock is held, but while they are tended. */
static void tend_abandoned(struct run *run) {
    fkv_file *file = run->file;
    uint32_t abandoned = file->abandoned;
    uint64_t done = 0;
    if (!abandoned) return;
    pthread_mutex_unlock(&file->lock);
    uint32_t left = tend(file, abandoned, &done);
    pthread_mutex_lock(&file->lock);
    /* Who joins gets those that sleep. Others may have been abandoned meanwhile. */
    file->abandoned &= ~abandoned | left;
    bool has_moved = done > 0 || left != abandoned || file->abandoned != run->tends.of;
    if (has_moved) fkv_begin_patience(file, &run->tends, file->abandoned);
    else fkv_note_stuck(file, fkv_never_room(file, &run->tends));
}

void fkv_end_abandoned(fkv_file *file) {
    struct timespec until = fkv_later(fkv_now(), ABANDONED_US);
    while ((file->abandoned || file->warmer.is_awake) && !file->stuck && fkv_is_before(fkv_now(), until)) {
        struct turn turn = {0};
        uint64_t done = 0;
        file->abandoned = tend(file, file->abandoned, &done);
        if (file->warmer.is_awake) fkv_rest_own(file);
        if (!file->abandoned && !file->warmer.is_awake) return;
        if (fkv_make_turn(file, &turn, NULL, NULL) < 0) return;
        nanosleep(&(struct timespec){0, ABANDONED_TURN_US * 1000}, NULL);
    }
}

/* ---- Turns ---------------------------------------------------------------------------------------------------------------------- */

/* The lock isn't held. */
static void tell_progress(void *its_run, const struct turn *turn) {
    const struct run *run = its_run;
    const fkv_keeping *keeping = &run->file->keeping;
    fkv_progress progress = {FKV_COMMITTING, run->written + turn->written, 0};
    if (keeping->progress) keeping->progress(keeping->user, &progress);
}

/* Whether a commit is in hand that still waits for sessions, and hasn't done so for long. The file's lock is held. */
static bool makes_haste(const struct run *run) {
    return run->file->in_hand && run->written == 0 && fkv_is_before(fkv_now(), run->haste);
}

/* How long nobody needs a turn while sessions are joined, and no commit is in hand. The lock is held. */
static uint32_t usual_rest_us(const struct run *run) {
    if (run->file->keeping.turn_us) return run->file->keeping.turn_us;
    if (run->idle < IDLE_TURNS) return USUAL_TURN_US;
    uint32_t longer = (run->idle - IDLE_TURNS + 2) * USUAL_TURN_US;
    return longer < IDLE_SESSION_US ? longer : IDLE_SESSION_US;
}

/* How long nobody needs a turn. */
static uint32_t rest_us(const struct run *run) {
    const fkv_file *file = run->file;
    uint32_t usual = usual_rest_us(run);
    uint32_t most = makes_haste(run) ? HASTE_TURN_US : COMMIT_TURN_US;
    if (file->in_hand || run->is_put_off) return usual < most ? usual : most;
    return file->joined || file->abandoned || usual > IDLE_TURN_US ? usual : IDLE_TURN_US;
}

/* Waits for the next turn, or commit. The file's lock is held. */
static void rest(const struct run *run) {
    fkv_file *file = run->file;
    const struct warmer *warmer = &file->warmer;
    if (run->has_called || file->rests || file->nudged || file->stops || (!run->is_put_off && is_due(run))) return;
    struct timespec until = fkv_later(fkv_now(), rest_us(run)), due = run->next;
    bool sweeps = fkv_has_sweep(file) && file->trimmer.has_more;
    if (sweeps && fkv_is_before(due, run->longer)) due = run->longer;
    if (warmer->has_more && fkv_is_before(warmer->rests_until, until)) until = warmer->rests_until;
    if (goes_by_clock(file) && !run->is_put_off && fkv_is_before(due, until)) until = due;
    if (sweeps && file->asked > file->covers && fkv_is_before(run->sweeps, until)) until = run->sweeps;
    pthread_cond_timedwait(&file->work, &file->lock, &until);
}

/* Calls the hook of a finished commit, and then wakes who waits for it. The file's lock is held, but in the hook. */
static void finish_commit(struct run *run, const struct turn *turn) {
    fkv_file *file = run->file;
    const fkv_keeping *keeping = &file->keeping;
    pthread_mutex_unlock(&file->lock);
    if (keeping->committed) keeping->committed(keeping->user, turn->turned.number, turn->points, (size_t)file->shape.sessions);
    pthread_mutex_lock(&file->lock);
    note_finished(run, turn);
}

/* The library's session does its part. Nothing but what can't wait, while a commit waits for sessions. The lock is held, but meanwhile. */
static void warm(const struct run *run) {
    fkv_file *file = run->file;
    bool has_time = !file->in_hand || run->written > 0;
    if (!file->has_own) return;
    pthread_mutex_unlock(&file->lock);
    fkv_warm(file, has_time);
    pthread_mutex_lock(&file->lock);
}

/* Calls the hook `untrimmed`, once for either cause. The file's lock is held, but in the hook. */
static void tell_untrimmed(fkv_file *file, int why) {
    const fkv_keeping *keeping = &file->keeping;
    bool *has_told = why == EAGAIN ? &file->has_told_long : &file->has_told_untrimmed;
    if (!keeping->untrimmed || *has_told) return;
    *has_told = true;
    pthread_mutex_unlock(&file->lock);
    keeping->untrimmed(keeping->user, why);
    pthread_mutex_lock(&file->lock);
}

/*
 * Whether the turn that began then has copied a part of the index. The next one copies more, so no rest comes between: until the copy is done each
 * key's first update goes the long way.
 */
static bool has_copied(const struct run *run, struct timespec began) {
    return run->file->in_hand && run->is_full && run->written == 0 && fkv_since(began) >= COPY_TURN_US;
}

/* A turn, and what it has come to. The file's lock is held, but while the turn goes on. */
static void go_on(struct run *run) {
    fkv_file *file = run->file;
    struct turn turn = {0};
    fkv_sync_ahead(file);
    tend_abandoned(run);
    warm(run);
    fkv_take_turn(file);
    bool begins = begin_commit(run);
    bool commits = file->in_hand;
    /* What rests goes on once it was synced ahead. What comes to rest in this turn wasn't yet. */
    bool goes_on = file->rests && (file->sync_why || file->synced == file->writes), sweeps = fkv_has_sweep(file) && fkv_may_sweep(file);
    bool is_stirred = file->nudged || file->is_stirred || commits || file->abandoned;
    bool is_helped = file->helped != run->helped;
    run->helped = file->helped;
    run->idle = is_stirred ? 0 : run->idle < UINT16_MAX ? run->idle + 1 : run->idle;
    file->nudged = file->is_stirred = false;
    pthread_mutex_unlock(&file->lock);
    if (begins) tell_progress(run, &turn);
    tell_turn_fn *tell = commits ? tell_progress : NULL;
    struct timespec began = fkv_now();
    int32_t result = goes_on ? fkv_make_turn(file, &turn, tell, run) : sweeps ? fkv_sweep_turn(file, &turn, tell, run) : fkv_serve_turn(file, &turn, tell, run);
    if (sweeps && result == FKV_OVER) fkv_note_swept(file, &turn);
    bool is_finished = result == FKV_OVER && turn.turned.finished;
    if (is_finished) fkv_note_begin(file);
    int why = fkv_give_back(file);
    run->written += turn.written;
    run->copied += turn.copied;
    /* What was let go on does so in the next turn. Who waits for a read makes its turns, and would only find this thread in the way. */
    run->has_called = goes_on || has_copied(run, began) || (sweeps && result == FKV_OVER && file->trimmer.has_more) || fkv_gives_back(file) || (turn.has_called && (turn.written > 0 || commits || !is_helped));
    pthread_mutex_lock(&file->lock);
    if (is_finished) file->in_hand = false;
    fkv_end_turn(file, &turn, result);
    if (is_finished) finish_commit(run, &turn);
    if (why) tell_untrimmed(file, why);
    if (is_finished && run->is_full && fkv_is_too_long(file)) tell_untrimmed(file, EAGAIN);
}

/* Linux ends a short sleep of a thread up to 50 microseconds late, unless the thread says otherwise. */
static void wake_in_time(void) {
    prctl(PR_SET_TIMERSLACK, 1UL, 0UL, 0UL, 0UL);
}

/* Calls the hook `stopped`, once. The file's lock is held, but in the hook. */
static void tell_stopped(struct run *run) {
    fkv_file *file = run->file;
    const fkv_keeping *keeping = &file->keeping;
    int32_t fault = atomic_load(&file->ends);
    if (!fault || fault == -FKV_NO_KEEPER || run->has_told) return;
    run->has_told = true;
    pthread_mutex_unlock(&file->lock);
    if (keeping->stopped) keeping->stopped(keeping->user, fkv_with_errno(file, fault));
    pthread_mutex_lock(&file->lock);
}

/* Calls the hook `unwarmed` where that is to be said, once. The file's lock is held, but in the hook. */
static void tell_unwarmed(fkv_file *file) {
    const fkv_keeping *keeping = &file->keeping;
    if (keeping->no_warmer || !keeping->unwarmed || file->has_told_unwarmed || fkv_can_warm(file)) return;
    file->has_told_unwarmed = true;
    pthread_mutex_unlock(&file->lock);
    keeping->unwarmed(keeping->user);
    pthread_mutex_lock(&file->lock);
}

static void *keep(void *its_file) {
    struct run run = {.file = its_file};
    fkv_file *file = its_file;
    wake_in_time();
    pthread_mutex_lock(&file->lock);
    tell_unwarmed(file);
    if (fkv_limits_log(file) && !fkv_can_trim(file)) tell_untrimmed(file, 0);
    if (fkv_limits_log(file) && file->trimmer.why) tell_untrimmed(file, file->trimmer.why);
    run.next = fkv_later(fkv_now(), (uint64_t)file->keeping.commit_ms * 1000);
    while (!file->stops) {
        if (fkv_has_turns(file)) go_on(&run);
        tell_stopped(&run);
        if (fkv_has_turns(file)) rest(&run);
        else if (!file->stops) pthread_cond_wait(&file->work, &file->lock);
    }
    atomic_store(&file->is_behind, false);
    file->runs = false;
    fkv_find_end(file);
    pthread_cond_broadcast(&file->news);
    pthread_mutex_unlock(&file->lock);
    return NULL;
}

/* ---- Its start and end ---------------------------------------------------------------------------------------------------------- */

/* Starts the thread, which takes no signals: they are the program's. */
static int start_thread(fkv_file *file) {
    sigset_t all, before;
    sigfillset(&all);
    int failed = pthread_sigmask(SIG_SETMASK, &all, &before);
    if (failed) return failed;
    failed = pthread_create(&file->thread, NULL, keep, file);
    pthread_sigmask(SIG_SETMASK, &before, NULL);
    return failed;
}

int fkv_begin_run(fkv_file *file, const fkv_keeping *keeping) {
    file->keeping = keeping ? *keeping : (fkv_keeping){0};
    if (file->keeping.commit_ms > MOST_MS) file->keeping.commit_ms = MOST_MS;
    file->stops = false;
    fkv_begin_warming(file);
    fkv_begin_trimming(file);
    int failed = start_thread(file);
    file->runs = !failed;
    file->run += !failed;
    fkv_find_end(file);
    return failed;
}

int32_t fkv_start(fkv_file *file, const fkv_keeping *keeping) {
    int failed = 0;
    pthread_mutex_lock(&file->lock);
    while (file->is_renewed) pthread_cond_wait(&file->news, &file->lock);
    bool runs = file->runs;
    if (!runs) failed = fkv_begin_run(file, keeping);
    pthread_mutex_unlock(&file->lock);
    if (runs) return -FKV_HANDLE_TAKEN;
    errno = failed ? failed : errno;
    return failed ? -FKV_DEVICE : 0;
}

/*
 * Ends this run of the thread, and no later one that is started meanwhile. Of several callers the first joins the thread. It joins what
 * has ended: if two threads joined each other, the system would refuse it, and the thread would go on. A turn that a session's thread
 * still makes is over by then too.
 */
static void end_run(fkv_file *file, uint64_t run) {
    pthread_mutex_lock(&file->lock);
    pthread_t thread = file->thread;
    bool is_first = file->runs && file->run == run && !file->stops;
    if (is_first) {
        file->stops = true;
        fkv_find_end(file);
        pthread_cond_signal(&file->work);
    }
    while (file->runs && file->run == run) pthread_cond_wait(&file->news, &file->lock);
    fkv_take_turn(file);
    fkv_give_turn(file);
    pthread_mutex_unlock(&file->lock);
    if (is_first) pthread_join(thread, NULL);
}

bool fkv_has_unkept(fkv_file *file) {
    for (uint64_t i = 0; i < file->shape.sessions; i++) {
        uint64_t serial = 0;
        if ((file->joined | file->abandoned) >> i & 1) continue;
        if (fkv_serial(&file->sessions[i], &serial) == 0 && serial != file->points[i]) return true;
    }
    return file->abandoned != 0;
}

bool fkv_is_own_thread(const fkv_file *file) { return file->runs && pthread_equal(file->thread, pthread_self()); }

int32_t fkv_stop(fkv_file *file, uint32_t with_commit) {
    pthread_mutex_lock(&file->lock);
    /* A hook calls. Its thread can't wait for its own end. */
    bool is_own = fkv_is_own_thread(file);
    while (!is_own && file->is_renewed) pthread_cond_wait(&file->news, &file->lock);
    pthread_mutex_unlock(&file->lock);
    return is_own ? -FKV_HANDLE_OUT : fkv_stop_thread(file, with_commit);
}

/* Whether a session that this thread joined or refreshed last is still joined, and the library hasn't refreshed it since the commit began. */
static bool has_late_session(const fkv_file *file) {
    for (int i = 0; i < FKV_MOST_SESSIONS; i++) {
        const struct seat *seat = &file->seats[i];
        bool is_own = file->joined >> i & 1 && atomic_load(&seat->thread) == (uintptr_t)pthread_self();
        if (is_own && atomic_load(&seat->begun) < atomic_load(&file->begun)) return true;
    }
    return false;
}

/*
 * Waits for the last commit. A session of this thread that is awake would hold it up for ever, as the thread waits here. Whether one is awake
 * isn't known from outside. So this goes by turns that find nothing to write for long.
 */
static int32_t wait_last(fkv_file *file, uint64_t ticket) {
    for (;;) {
        pthread_mutex_lock(&file->lock);
        uint64_t turns = file->turns, called = file->called;
        pthread_mutex_unlock(&file->lock);
        int32_t result = fkv_wait_commit_for(file, ticket, NULL, HELD_UP_MS);
        if (result != FKV_PENDING) return result;
        pthread_mutex_lock(&file->lock);
        bool is_held_up = atomic_load(&file->in_hand) && file->called == called && file->turns - turns >= HELD_UP_TURNS;
        bool is_own = is_held_up && has_late_session(file);
        pthread_mutex_unlock(&file->lock);
        if (is_own) return -FKV_HANDLE_OUT;
    }
}

int32_t fkv_stop_thread(fkv_file *file, uint32_t with_commit) {
    uint64_t ticket = 0;
    int32_t result = 0;
    pthread_mutex_lock(&file->lock);
    bool keeps = with_commit == FKV_STOP_KEEP && file->runs && !file->joined && fkv_has_unkept(file);
    uint64_t run = file->run;
    pthread_mutex_unlock(&file->lock);
    if (keeps || (with_commit && with_commit != FKV_STOP_KEEP)) {
        result = fkv_ask_commit(file, &ticket);
        if (result == 0) result = wait_last(file, ticket);
        if (result == -FKV_HANDLE_OUT) return result;
    }
    int why = errno;
    end_run(file, run);
    errno = why;
    return result;
}
