"""examples/words.py, killed at random: what it counts is exact.

KILLS says how many kills, by default 5.
"""
import collections
import os
import random
import subprocess
import sys
import tempfile
import time
import unittest

PROGRAM = f"{os.path.dirname(os.path.realpath(__file__))}/../examples/words.py"
KILLS = int(os.environ.get("KILLS", "5"))
WORDS = 2000
# A life counts some of the text's words. A text that is too short grows, and the counting begins anew.
LENGTH = 100_000 + 10_000 * KILLS
# A life is killed within so many seconds. On a busy machine it may have kept nothing by then, and the next one gets longer.
REACH, LONGER = 0.4, 1.3
SECONDS = 120


class Killed(unittest.TestCase):
    def test_words(self):
        dice = random.Random(1)
        with tempfile.TemporaryDirectory(prefix="fkv-words-") as room:
            length = LENGTH
            while not self.is_counted(room, [f"word{int(WORDS * dice.random() ** 2)}" for _ in range(length)], dice):
                length *= 2

    def is_counted(self, room, words, dice):
        """Kills the program so often, and then lets it end. False if it ended before."""
        text, store = f"{room}/text{len(words)}", f"{room}/store{len(words)}"
        with open(text, "w", encoding="utf-8") as file:
            file.write(" ".join(words))
        command, counted, reach = [sys.executable, PROGRAM, store, text], [0], REACH
        for _ in range(KILLS):
            with subprocess.Popen(command, stdout=subprocess.PIPE, text=True) as life:
                counted.append(int(life.stdout.readline().split()[2]))
                if len(counted) > 2 and counted[-1] == counted[-2]:
                    reach *= LONGER
                time.sleep(dice.random() * reach)
                life.kill()
            if life.returncode != -9:
                self.assertEqual(life.returncode, 0)
                return False
        ran = subprocess.run(command, capture_output=True, text=True, timeout=SECONDS, check=False)
        self.assertEqual((ran.returncode, ran.stderr), (0, ""))
        first, *lines = ran.stdout.splitlines()
        counted.append(int(first.split()[2]))
        self.assertEqual(counted, sorted(counted))
        self.assertGreater(counted[-1], 0)
        wanted = collections.Counter(words)
        self.assertEqual(lines, [f"{word} {wanted[word]}" for word in sorted(wanted)])
        print(f"{KILLS} kills; the last life began at {counted[-1]} of {len(words)} words", file=sys.stderr)
        return True


if __name__ == "__main__":
    unittest.main()
