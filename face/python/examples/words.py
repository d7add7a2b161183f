"""Counts the words of a text by four threads, with a commit each 100 milliseconds, and survives `kill -9` at any time.

    python3 words.py STORE TEXT     writes each word with its count, in order, once all are counted

Thread i counts words i, i + 4, i + 8 .., by one update for each. So its session's point says how many of its words a crash has kept, and a
later run goes on with the next one. Nothing is counted twice, and nothing is left out.
"""
import hashlib
import sys
import threading

import fkv

THREADS = 4
# After so many words an update's batch is sent off.
BATCH = 64


def key_of(word):
    """64 bits for a word: the same in each run."""
    return int.from_bytes(hashlib.blake2b(word.encode(), digest_size=8).digest(), "little")


def count(store, number, words, keys):
    with store.join(number) as session:
        mine = words[number::THREADS]
        for begin in range(session.serial, len(mine), BATCH):
            session.increment_many([keys[it] for it in mine[begin:begin + BATCH]])


def main():
    path, text = sys.argv[1:]
    with open(text, encoding="utf-8") as file:
        words = file.read().split()
    keys = {it: key_of(it) for it in set(words)}
    with fkv.open(path, fkv.Wish(keys=len(keys)), fkv.Keeping(commit_ms=100)) as store:
        print("counted already:", sum(store.last_commit.points), "of", len(words), flush=True)
        threads = [threading.Thread(target=count, args=(store, it, words, keys)) for it in range(THREADS)]
        for it in threads:
            it.start()
        for it in threads:
            it.join()
        with store.join() as session:
            session.commit()
            for word in sorted(keys):
                print(word, session[keys[word]])


main()
