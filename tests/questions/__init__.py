"""The questions that tests/compare asks: one module for each kind.

A kind is a function of a seeded random generator. It yields lines without their line ends, and
never runs out: first the ones that are always worth asking, then random ones. All kinds but frame
ask for one word each.
"""

from questions import apart, ceiling, frame, meet, plain, plan, plane, read, run, side, why, write, zone

KINDS = {
    "apart": apart.questions,
    "frame": frame.questions,
    "run": run.questions,
    "ceiling": ceiling.questions,
    "plain": plain.questions,
    "side": side.questions,
    "zone": zone.questions,
    "why": why.questions,
    "plan": plan.questions,
    "plane": plane.questions,
    "meet": meet.questions,
    "write": write.questions,
    "read": read.questions,
}
