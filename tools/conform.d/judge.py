"""Compares what the device did with what the proved node did and with the case's own words."""
import dataclasses

import cases

PASSED, FAILED, WARNED, NOTED, KIT = "passed", "failed", "warned", "noted", "kit is wrong"


@dataclasses.dataclass
class Verdict:
    """What became of a case, and why: the step, and how it is not as permitted."""

    case: cases.Case
    outcome: str
    why: list = dataclasses.field(default_factory=list)
    step: int = 0
    device: object = None
    proved: object = None


def called(value, names):
    """A value with the names of addresses in their place: those of the device may be others than the proved node's."""
    return " ".join(names.get(it, it) for it in value.split(" ")) if isinstance(value, str) else value


def compared(said, named, names):
    """The fields that two answers have to have alike, those of a packet within the packet among them."""
    return {it: compared(value, (), names) if isinstance(value, dict) else called(value, names) for it, value in said.items() if it not in cases.FREE and it not in named}


def differences(done, proved, names):
    """How a step of the device has another answer than the proved node's, in the fields of which the case does not speak."""
    found = []
    if done.choice != proved.choice or done.is_lax:
        return found
    for ours, theirs in zip(proved.came, done.came):
        ours, theirs = compared(ours, done.named, names[0]), compared(theirs, done.named, names[1])
        for field in sorted(ours.keys() | theirs.keys()):
            if ours.get(field) != theirs.get(field):
                found.append(f"{field} is {cases.told(theirs.get(field))} and not {cases.told(ours.get(field))}, as the proved node has it")
    return found


def not_met(case, level):
    """The outcome of a case one step of which is not met."""
    if case.ours:
        return NOTED
    return WARNED if (level or case.level) == cases.SHOULD else FAILED


def late(result):
    """What came when the case had ended."""
    return [f"an answer came late, {it}" for it in result.late[:1]]


def judge(case, proved, device):
    if proved.wrong:
        return Verdict(case, KIT, [f"the proved node: {it}" for it in proved.wrong], len(proved.steps) - 1, device, proved)
    for at, (done, ours) in enumerate(zip(device.steps, proved.steps)):
        why = done.wrong or differences(done, ours, (proved.names, device.names))
        if why:
            return Verdict(case, not_met(case, done.level), why + late(device), at, device, proved)
    if device.late:
        return Verdict(case, not_met(case, ""), late(device), len(device.steps) - 1, device, proved)
    return Verdict(case, PASSED, [], 0, device, proved)
