/*
 * Counts the items of one partition of a log by key, exactly, over a store of its own. The log is a stream of Redis.
 *
 *     worker HOST PORT PARTITION STORE NAME     reads stream:PARTITION in the group `counts`, as consumer NAME, until it is killed
 *     worker check STORE                        writes each key with its count
 *
 * The producer gives item n of a partition the ID n-0, from 1 on. The store's session 0 makes one update for each item, in their order. So
 * an update's serial is its item's position, and the session's point says how far the counts on disk have come. A worker begins after
 * the point, whatever the group says, and acknowledges items once a commit keeps them. The stream is never trimmed above the point.
 *
 * A line `save PATH` on its input makes a backup there, by which another worker takes the partition over. It answers `saved`.
 */
#include "fkv_posix.h"

#include <hiredis/hiredis.h>
#include <inttypes.h>
#include <poll.h>
#include <stdarg.h>
#include <stdio.h>
#include <stdlib.h>
#include <string.h>

enum { COMMIT_MS = 100, ITEMS = 256, WAIT_MS = 50, ACKNOWLEDGED = 512, WORD = 200 };

struct worker {
    const char *partition, *name;
    redisContext *redis;
    fkv_file *store;
    fkv_session *session;
    uint64_t acknowledged;
};

static void stop(const char *what, const char *why) {
    fprintf(stderr, "worker: %s: %s\n", what, why);
    exit(1);
}

static int32_t must(int32_t result, const char *what) {
    if (result < 0) stop(what, fkv_text_of(result));
    return result;
}

static void connect_to(struct worker *worker, const char *host, int port) {
    if (worker->redis) redisFree(worker->redis);
    worker->redis = redisConnect(host, port);
    if (!worker->redis || worker->redis->err) stop("redis", worker->redis ? worker->redis->errstr : "no memory");
}

/* Asks Redis, and follows a node of a cluster that names the one which has the stream. The caller frees the answer. */
static redisReply *ask(struct worker *worker, const char *format, ...) {
    for (;;) {
        va_list words;
        va_start(words, format);
        redisReply *reply = redisvCommand(worker->redis, format, words);
        va_end(words);
        char host[WORD];
        int port;
        if (!reply) stop("redis", worker->redis->errstr);
        if (reply->type != REDIS_REPLY_ERROR || sscanf(reply->str, "MOVED %*d %199[^:]:%d", host, &port) != 2) return reply;
        freeReplyObject(reply);
        connect_to(worker, host, port);
    }
}

static void ask_ok(struct worker *worker, redisReply *reply, const char *but) {
    (void)worker;
    if (reply->type == REDIS_REPLY_ERROR && (!but || strncmp(reply->str, but, strlen(but)) != 0)) stop("redis", reply->str);
    freeReplyObject(reply);
}

/* The group delivers what comes after the point. There may have been a group already, at another place. */
static void begin_behind(struct worker *worker, uint64_t point) {
    ask_ok(worker, ask(worker, "XGROUP CREATE stream:%s counts 0 MKSTREAM", worker->partition), "BUSYGROUP");
    ask_ok(worker, ask(worker, "XGROUP SETID stream:%s counts %" PRIu64 "-0", worker->partition, point), NULL);
    worker->acknowledged = point;
}

/* Acknowledges the items that a commit keeps: no worker asks for them any more. */
static void acknowledge(struct worker *worker) {
    uint64_t durable;
    must(fkv_durable(worker->session, &durable), "durable");
    while (worker->acknowledged < durable) {
        char text[ACKNOWLEDGED][24];
        const char *words[3 + ACKNOWLEDGED];
        char stream[WORD];
        int count = 0;
        snprintf(stream, sizeof stream, "stream:%s", worker->partition);
        words[0] = "XACK", words[1] = stream, words[2] = "counts";
        for (; count < ACKNOWLEDGED && worker->acknowledged < durable; count++) {
            snprintf(text[count], sizeof text[count], "%" PRIu64 "-0", ++worker->acknowledged);
            words[3 + count] = text[count];
        }
        redisReply *reply = redisCommandArgv(worker->redis, 3 + count, words, NULL);
        if (!reply) stop("redis", worker->redis->errstr);
        ask_ok(worker, reply, NULL);
    }
}

/* Counts an item: [ID, ["key", KEY]]. Its position has to be the one after the last update's serial. */
static void count_item(struct worker *worker, const redisReply *item) {
    uint64_t last, position = strtoull(item->element[0]->str, NULL, 10);
    fkv_update told;
    must(fkv_serial(worker->session, &last), "serial");
    if (position != last + 1) stop(item->element[0]->str, "this item isn't the next one");
    must(fkv_increment(worker->store, worker->session, strtoull(item->element[1]->element[1]->str, NULL, 10), 1, &told), "increment");
    must(fkv_tick(worker->store, worker->session), "tick");
}

/* Reads the next items, and waits a while if there are none. The session sleeps meanwhile, so that a commit goes on. */
static void read_items(struct worker *worker) {
    fkv_seen seen;
    must(fkv_sleep(worker->session), "sleep");
    redisReply *reply = ask(worker, "XREADGROUP GROUP counts %s COUNT %d BLOCK %d STREAMS stream:%s >", worker->name, ITEMS, WAIT_MS, worker->partition);
    must(fkv_wake(worker->session, &seen), "wake");
    if (reply->type == REDIS_REPLY_ERROR) stop("redis", reply->str);
    if (reply->type == REDIS_REPLY_ARRAY) {
        const redisReply *items = reply->element[0]->element[1];
        for (size_t at = 0; at < items->elements; at++) count_item(worker, items->element[at]);
    }
    freeReplyObject(reply);
}

/* Makes a backup if the input asks for one. */
static void hear(struct worker *worker) {
    struct pollfd input = {.fd = 0, .events = POLLIN};
    char line[4096], path[4096];
    if (poll(&input, 1, 0) <= 0) return;
    if (!fgets(line, sizeof line, stdin) || sscanf(line, "save %4095s", path) != 1) exit(0);
    must(fkv_sleep(worker->session), "sleep");
    must(fkv_save(worker->store, path, NULL, NULL), "save");
    fkv_seen seen;
    must(fkv_wake(worker->session, &seen), "wake");
    puts("saved");
    fflush(stdout);
}

static int32_t tell_pair(void *user, uint64_t key, uint64_t value) {
    (void)user;
    printf("%" PRIu64 " %" PRIu64 "\n", key, value);
    return 0;
}

int main(int count, char **words) {
    struct worker worker = {0};
    const fkv_keeping keeping = {.commit_ms = COMMIT_MS};
    const fkv_wish wish = {.keys = 4096, .sessions = 1};
    uint64_t point;
    setvbuf(stdin, NULL, _IONBF, 0);
    if (count != 6 && !(count == 3 && strcmp(words[1], "check") == 0)) return fprintf(stderr, "usage: worker HOST PORT PARTITION STORE NAME\n"), 2;
    must(fkv_open_or_make(words[count == 3 ? 2 : 4], &wish, &worker.store), "open");
    if (count == 3) {
        must(fkv_each(worker.store, tell_pair, NULL), "each");
        return fkv_close_file(worker.store);
    }
    must(fkv_start(worker.store, &keeping), "start");
    must(fkv_join(worker.store, 0, &worker.session), "join");
    must(fkv_serial(worker.session, &point), "serial");
    worker.partition = words[3], worker.name = words[5];
    connect_to(&worker, words[1], atoi(words[2]));
    begin_behind(&worker, point);
    printf("begins at %" PRIu64 "\n", point);
    fflush(stdout);
    for (;;) {
        read_items(&worker);
        acknowledge(&worker);
        uint64_t durable;
        must(fkv_durable(worker.session, &durable), "durable");
        printf("durable %" PRIu64 "\n", durable);
        fflush(stdout);
        hear(&worker);
    }
}
