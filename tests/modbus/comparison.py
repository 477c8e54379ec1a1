"""What is asked of the core and what is due of it, what pymodbus does beside it, and how many cases of each kind there were."""
import pathlib
import subprocess
import sys
from collections import Counter, defaultdict

from encoding import answer_line, case_bytes

ROOT = pathlib.Path(__file__).resolve().parent.parent.parent


def answers(cases):
    """What the core answers: a list of words for each case."""
    said = subprocess.run([ROOT / "crates" / "vectors" / "out" / "vectors"], input=b"".join(case_bytes(*case) for case in cases), stdout=subprocess.PIPE, check=True).stdout
    return [line.split(" ") for line in said.decode().splitlines()]


def read_by_pymodbus(framer, packet, unit):
    """The messages that it finds in a packet."""
    found = []
    framer.resetFrame()
    framer.processIncomingPacket(packet, found.append, unit=unit, single=True)
    return found


def some_bytes(chance, length):
    return bytes(chance.randrange(256) for _ in range(length))


class Comparison:
    def __init__(self):
        self.asked, self.faults = [], []
        self.counts, self.beside = Counter(), defaultdict(Counter)

    def ask(self, what, case, words, then=None):
        """A case for the core, and the words that are due. Where it answers them, `then` is given its byte string."""
        self.counts[what] += 1
        self.asked.append((what, case, answer_line(words).split(), then))

    def ask_written(self, what, case, made, then=None):
        """A case for a writer of the core: it has to write these bytes over the front of its output, which `then` is given."""
        room = case[2][1]
        self.ask(what, case, [0, len(made), made + room[len(made):]], then and (lambda output: then(output[:len(made)])))

    def judge(self, what, same, seen):
        """Something that pymodbus makes of what the core wrote, and has to be the same."""
        self.counts[what] += 1
        if not same:
            self.faults.append(f"{what}: {seen}")

    def tell(self, what, said):
        """Something that pymodbus does, and is not judged."""
        self.beside[what][said] += 1

    def run(self):
        """Has the core answer all cases."""
        got = answers([case for _, case, _, _ in self.asked])
        if len(got) != len(self.asked):
            sys.exit(f"{len(self.asked)} cases, {len(got)} answers")
        for (what, (act, numbers, strings), words, then), answer in zip(self.asked, got):
            if words != answer:
                given = [string.hex() for string in strings]
                self.faults.append(f"{what}: {act} {numbers} {given}: due {' '.join(words)}, answered {' '.join(answer)}")
            elif then:
                then(bytes.fromhex(answer[-1].strip("-")))

    def report(self):
        for what in sorted(self.counts):
            print(f"{self.counts[what]:6} {what}")
            for said, count in sorted(self.beside[what].items()):
                print(f"         {count:6} {said}")
        for fault in self.faults:
            print("differs:", fault)
        print(f"{len(self.faults)} differences")
