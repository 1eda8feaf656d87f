"""Scripts of steps at a desk as docs/FORMATS.md describes them, and what `replay` answers, plainly and slowly."""

import re

from epd import lines_of, read_record

NUMBER = rb"[0-9]{1,9}"
DESK = re.compile(rb"desk (%b) (%b) (%b)\Z" % (NUMBER, NUMBER, NUMBER))
STEP = re.compile(
    rb"(?s:(submit) (%b) (.*)|(finish|handback|collect) (%b)|(withdraw) (%b) (%b)|(take|drained|close))\Z" % ((NUMBER,) * 4)
)


def read_script(text):
    """The three numbers of the desk and the steps, each a name and its operands; or the number of the first line at fault."""
    opening, steps = None, []
    for number, line in lines_of(text):
        if opening is None:
            opening = DESK.match(line)
            if not opening or not 1 <= int(opening[3]) <= 15:
                return None, number
        else:
            step = STEP.match(line)
            if not step:
                return None, number
            steps.append([part for part in step.groups() if part is not None])
    if opening is None:
        return None, 0
    return ([int(group) for group in opening.groups()], steps), None


class Desk:
    """A desk as lists: each submitter's accepted records, of which the first so many were delivered, and the jobs in hand."""

    def __init__(self, submitters, room, bound):
        self.queues = [[] for _ in range(submitters)]
        self.delivered = [0] * submitters
        self.room, self.bound = room, bound
        self.next, self.is_closed, self.hand = 0, False, []

    def pending(self):
        return [entry for queue, count in zip(self.queues, self.delivered) for entry in queue[count:]]

    def submit(self, who, line):
        record, fault = read_record(line, self.bound)
        if fault:
            return "refused " + fault
        if who >= len(self.queues):
            return "refused NoSuchSubmitter"
        if self.is_closed:
            return "refused Closed"
        if len(self.queues[who]) - self.delivered[who] >= self.room:
            return "refused Full"
        self.queues[who].append({"ticket": self.next, "record": record, "phase": "waiting", "withdrawn": False})
        self.next += 1
        return f"ticket {self.next - 1}"

    def take(self):
        waiting = [entry for entry in self.pending() if entry["phase"] == "waiting" and not entry["withdrawn"]]
        if not waiting:
            return "nothing"
        entry = min(waiting, key=lambda entry: entry["ticket"])
        entry["phase"] = "out"
        self.hand.append(entry)
        return f"job {entry['ticket']}"

    def come_back(self, number, word, phase):
        if number >= len(self.hand):
            return "no job"
        entry = self.hand.pop(number)
        entry["phase"] = phase
        return f"{word} {entry['ticket']}"

    def collect(self, who):
        if who >= len(self.queues):
            return "refused NoSuchSubmitter"
        if self.delivered[who] == len(self.queues[who]):
            return "none"
        entry = self.queues[who][self.delivered[who]]
        if entry["phase"] == "out" or (entry["phase"] == "waiting" and not entry["withdrawn"]):
            return "none"
        self.delivered[who] += 1
        return f"notice {entry['ticket']}" if entry["withdrawn"] else entry["record"]

    def withdraw(self, who, number):
        if who >= len(self.queues):
            return "refused NoSuchSubmitter"
        if number >= len(self.queues[who]):
            return "refused NotAccepted"
        if number < self.delivered[who]:
            return "refused Delivered"
        if self.queues[who][number]["withdrawn"]:
            return "refused Withdrawn"
        self.queues[who][number]["withdrawn"] = True
        return "withdrawn"

    def make(self, name, *operands):
        """The reply to a step."""
        if name == b"submit":
            return self.submit(int(operands[0]), operands[1])
        numbers = [int(operand) for operand in operands]
        if name == b"finish":
            return self.come_back(*numbers, "done", "finished")
        if name == b"handback":
            return self.come_back(*numbers, "back", "waiting")
        if name == b"drained":
            return "drained no" if self.pending() or self.hand else "drained yes"
        if name == b"close":
            self.is_closed = True
            return "closed"
        return {b"take": self.take, b"collect": self.collect, b"withdraw": self.withdraw}[name](*numbers)

    def bounds(self):
        """Those of the records that were accepted."""
        return [entry["record"].bound for queue in self.queues for entry in queue]


def replayed(text):
    """What `replay` answers to a script: the replies, each bytes or a record that is answered, what is said on standard error, and the
    desk."""
    script, fault = read_script(text)
    if script is None:
        return [], f"matedesk: script line {fault}\n", None
    (submitters, room, bound), steps = script
    if not 1 <= submitters <= 16:
        return [], "matedesk: BadSubmitters\n", None
    if not 1 <= room <= 64:
        return [], "matedesk: BadRoom\n", None
    desk = Desk(submitters, room, bound)
    found = [desk.make(*step) for step in steps]
    return [reply.encode() if isinstance(reply, str) else reply for reply in found], "", desk
