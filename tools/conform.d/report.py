"""What is told of the cases: as text, as JSON, and for JUnit's readers."""
import json
import re
import xml.etree.ElementTree as xml

import cases
import judge
import runs

ORDER = (judge.PASSED, judge.FAILED, judge.WARNED, judge.NOTED, judge.KIT)


def permitted(step, proved):
    """What a step's words and the proved node say."""
    rows = [("permitted", step.text)]
    if proved is not None:
        rows.append(("proved node", ", ".join(runs.said_text(it, {*cases.FREE, "kind"}) for it in proved.came) or "nothing"))
    return rows


def named(rows, names):
    """The rows with the names of addresses in place of these, and first what the names stand for."""
    used = {}

    def name_of(found):
        if found[0] in names:
            used[names[found[0]]] = found[0]
        return names.get(found[0], found[0])

    rows = [(word, re.sub(r"[0-9a-f:]{4,}", name_of, text) if word else text) for word, text in rows]
    return [("addresses", ", ".join(f"{name} {used[name]}" for name in sorted(used)))] + rows if used else rows


def rows_of(verdict):
    """The lines of a case that is not passed, as pairs of a word and a text; a text without a word is the bytes of a packet."""
    told = verdict.proved if verdict.outcome == judge.KIT else verdict.device
    rows = []
    for at, done in enumerate(told.steps[: verdict.step + 1]):
        if done.sent:
            rows += [("sent", done.text.removeprefix("sent ")), ("", done.sent.hex())]
        elif at < verdict.step:
            rows.append(("came", ", ".join(map(runs.said_text, done.came)) or done.text))
    done = told.steps[verdict.step]
    rows.append(("came", ", ".join(map(runs.said_text, done.came)) or "nothing"))
    if verdict.outcome != judge.KIT:
        both = verdict.proved.steps
        rows += permitted(done, both[verdict.step] if verdict.step < len(both) else None)
    else:
        rows += permitted(done, None)
    return named(rows + [("why", it) for it in verdict.why], told.names)


def row(verdict):
    case = verdict.case
    return f"{verdict.outcome:7} {case.level:6} {case.section:8} {case.name}: {case.says}"


def text_of(verdict):
    """A case in one line, and below it what happened where it is not passed."""
    lines = [row(verdict)]
    if verdict.outcome != judge.PASSED:
        lines += [f"    {word:11} {it}" for word, it in rows_of(verdict)]
    return "\n".join(lines)


def summary(verdicts, left_out, notes):
    counts = [f"{sum(it.outcome == word for it in verdicts)} {word}" for word in ORDER if word == judge.PASSED or any(it.outcome == word for it in verdicts)]
    lines = [", ".join(counts) + (f", {left_out} not run" if left_out else "")]
    return "\n".join(lines + list(notes))


def record(verdict):
    case = verdict.case
    it = {"name": case.name, "section": case.section, "level": case.level, "says": case.says, "outcome": verdict.outcome}
    if verdict.outcome != judge.PASSED:
        it["steps"] = [{"what": word, "text": text} for word, text in rows_of(verdict)]
    return it


def json_of(role, verdicts, left_out, notes):
    return json.dumps({"role": role, "cases": [record(it) for it in verdicts], "not run": left_out, "notes": list(notes)}, indent=1)


def junit_of(role, verdicts, left_out):
    """A suite with a test a case; a SHOULD that is not met is a skipped one, which no reader takes for a failure."""
    failed = sum(it.outcome in (judge.FAILED, judge.KIT) for it in verdicts)
    skipped = sum(it.outcome in (judge.WARNED, judge.NOTED) for it in verdicts)
    suite = xml.Element("testsuite", name=f"conform {role}", tests=str(len(verdicts)), failures=str(failed), skipped=str(skipped), errors="0")
    for it in verdicts:
        test = xml.SubElement(suite, "testcase", classname=f"{role} {it.case.section}", name=it.case.name)
        if it.outcome != judge.PASSED:
            word = "failure" if it.outcome in (judge.FAILED, judge.KIT) else "skipped"
            xml.SubElement(test, word, message="; ".join(it.why)).text = text_of(it)
    if left_out:
        xml.SubElement(suite, "system-out").text = f"{left_out} not run"
    return xml.tostring(suite, encoding="unicode") + "\n"
