"""The second program: an independent reading of 01 and 02 in big integers, over the lines of ask.

python3 tests/oracle reads questions from standard input and writes an answer line for each. This
file has the lines and the table of known words; each section of 01, and each request of 02 that has
a word, is a file of its own, whose functions take the words after the first and give the answer. They
read all their words before they refuse anything, since a line that is not of a known form is unclear
whatever it holds.

What the protocol leaves to its words, as read here:
- only a line feed ends a line, and every answer has one, also that to a last line without it;
- an input that ends with a line feed has no empty line after it, and an empty input has no line;
- '#' counts only as the first byte, and such a line may hold any bytes: it is copied whole;
- a space at the start or the end, or a second one, makes an empty word, which no form has; a line
  of spaces alone is not empty;
- the first word is in lower case, as written; tabs, NULs and carriage returns part no words;
- bytes, like doubles, are read in either case and written in lower case;
- a zone, as a why after its room and a plan after its counts, has the two words of its point at least,
  and its list of corners may be empty like others;
- a plan's refusal has three numbers, also where the zone's is 0 because no zone is refused;
- a total is written as a sign is, with a minus or nothing before its digits;
- the answer to read has the two doubles of each point, and no more of the room.
"""

import sys

import doubles
import meetings
import planes
import plans
import reasons
import sides
import sums
import tracks
import zones
from promises import Broken
from words import Refused, Unclear

ANSWERS = {
    b"apart": doubles.answer_apart,
    b"run": sums.answer_run,
    b"ceiling": sums.answer_ceiling,
    b"plain": sums.answer_plain,
    b"side": sides.answer_side,
    b"zone": zones.answer_zone,
    b"why": reasons.answer_why,
    b"plan": plans.answer_plan,
    b"plane": planes.answer_plane,
    b"meet": meetings.answer_meet,
    b"write": tracks.answer_write,
    b"read": tracks.answer_read,
}


def answer(line):
    """The answer to one line, both without a line end."""
    if not line or line.startswith(b"#"):
        return line
    first, *others = line.split(b" ")
    if first not in ANSWERS:
        return b"unclear"
    try:
        return ANSWERS[first](others)
    except Unclear:
        return b"unclear"
    except Refused as refusal:
        return b" ".join([b"refused"] + [b"%d" % number for number in refusal.args])
    except Broken as broken:
        return b"broken promise: " + str(broken).encode()


for raw in sys.stdin.buffer:
    line = raw[:-1] if raw.endswith(b"\n") else raw
    sys.stdout.buffer.write(answer(line) + b"\n")
    sys.stdout.buffer.flush()
