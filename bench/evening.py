"""A long evening as a script: machines 1, 2 and 3 carry the board, and machine 6 comes and goes.

    python3 bench/evening.py CALLS > some.script

Each turn of the evening renews the view, lets the spare 6 join, drops it again, makes it a spare once more, has the
mains of all three fail, and delivers old mail that is refused. A turn posts 20 messages in 70 calls, so that 200,000
calls fit one post.
"""
import sys

THREE = "{1,2,3}"
FOUR = "{1,2,3,6}"


class Evening:
    def __init__(self):
        self.lines = ["found {1,2,3} 1 one"]
        self.stamp = 0
        self.post = 0

    def say(self, line, posts=0):
        """A line that posts so many messages; answers the index of the first."""
        self.lines.append(line)
        first = self.post
        self.post += posts
        return first

    def announce(self, members, view):
        """The members take up a view, each posting one message; answers the message of each."""
        self.stamp += 1
        return {m: self.say(f"view {m} {self.stamp} {view}", 1) for m in members}

    def exchange(self, members, posted):
        """Each hears the messages of all others."""
        for hearer in members:
            for sender in members:
                if sender != hearer:
                    self.say(f"deliver {hearer} {posted[sender]}")

    def renew(self):
        posted = self.announce([1, 2, 3], THREE)
        self.say(f"deliver 1 {posted[2]}")
        self.say(f"deliver 2 {posted[1]}")
        self.say(f"deliver 3 {posted[1]}")

    def join(self):
        posted = self.announce([1, 2, 3, 6], FOUR)
        newcomer = self.say(f"deliver 6 {posted[1]}", 1)
        recorded = {m: self.say(f"deliver {m} {newcomer}", 1) for m in [1, 2, 3]}
        self.say(f"deliver 1 {recorded[2]}")
        self.say(f"deliver 2 {recorded[1]}")
        self.say(f"deliver 3 {recorded[1]}")
        self.say(f"deliver 6 {recorded[1]}")
        self.say(f"deliver 6 {recorded[2]}")

    def drop(self):
        self.exchange([1, 2, 3], self.announce([1, 2, 3], THREE))

    def walk_over(self):
        """6 restarts, hears of the view that it missed, and becomes a spare."""
        self.say("stop 6")
        self.say("start 6")
        posted = self.announce([6, 1], FOUR)
        answer = self.say(f"deliver 1 {posted[6]}", 1)
        self.say(f"deliver 6 {answer}")
        self.say("loss 1 6")

    def mains(self):
        for replica in [1, 2, 3]:
            self.say(f"stop {replica}")
        for replica in [1, 2, 3]:
            self.say(f"start {replica}")
        self.exchange([1, 2, 3], self.announce([1, 2, 3], THREE))

    def old_mail(self):
        for index in range(20):
            self.say(f"deliver {1 + index % 3} {self.post - 1 - index}")

    def turn(self):
        self.renew()
        self.join()
        self.drop()
        self.walk_over()
        self.mains()
        self.old_mail()


def script(calls):
    evening = Evening()
    while len(evening.lines) < calls:
        evening.turn()
    return "\n".join(evening.lines[:calls]) + "\n"


if __name__ == "__main__":
    sys.stdout.write(script(int(sys.argv[1]) if len(sys.argv) > 1 else 200_000))
