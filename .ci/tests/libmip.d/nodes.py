"""The calls of nodes.awk through mip.py, in the words of a trace."""
import sys

import mip


def told(name, it):
    hexed = lambda address: address.packed.hex()
    if it.kind is mip.AnswerKind.SEND:
        return f"sent {name} {'+' if it.is_shielded else '-'} {it.bytes.hex() or '-'}"
    if it.kind is mip.AnswerKind.ACCEPTED:
        index = "-" if it.careof_index is None else it.careof_index
        return f"accepted {name} {it.number} {hexed(it.home)} {it.binding} {hexed(it.careof)} {it.sequence} {it.end} {it.home_index} {index}"
    if it.kind is mip.AnswerKind.DENIED:
        return f"denied {name} {it.number} {it.status}"
    if it.kind is mip.AnswerKind.DROPPED:
        return f"dropped {name} {it.number} {it.why}"
    if it.kind is mip.AnswerKind.HOME:
        return f"home {name} {hexed(it.home)} {hexed(it.careof)} {it.sequence} {it.end}"
    if it.kind in (mip.AnswerKind.CLAIMED, mip.AnswerKind.RELEASED):
        return f"{it.kind.name.lower()} {name} {hexed(it.home)}"
    if it.kind is mip.AnswerKind.UP:
        return f"up {name} {it.number} {hexed(it.source)} {hexed(it.destination)} {it.proto} {it.bytes.hex() or '-'}"
    return None


def data(digits):
    return b"" if digits == "-" else bytes.fromhex(digits)


def addresses(digits):
    whole = data(digits)
    return [whole[at : at + 16] for at in range(0, len(whole), 16)]


def put_rows(name, it, now):
    hexed = lambda address: address.packed.hex()
    for row in it.rows(now):
        if isinstance(it, mip.HomeAgent):
            assert it.careof(now, row.home) == row.careof
            print(f"row {name} {hexed(row.home)} {hexed(row.careof)} {row.sequence} {row.end}")
        else:
            print(f"row {name} {hexed(row.home)} {row.binding} {hexed(row.careof)} {row.sequence} {row.end} {row.kept_until}")


def tick(it, now):
    assert it.due() <= now
    return it.tick(now)


# the words of a line behind a node's name, as the call that they are
CALLS = {
    "take": lambda it, now, number, packet: it.take(int(now), data(packet), int(number)),
    "hand": lambda it, now, number, ends, others, packet: it.take(
        int(now), data(packet), int(number), shield=mip.Shield(*addresses(ends)) if ends != "-" else None, others=addresses(others)
    ),
    "send": lambda it, now, to, proto, payload: it.send(int(now), data(to), data(payload), int(proto)),
    "refresh": lambda it, now, home: it.refresh(int(now), data(home)),
    "tick": lambda it, now: tick(it, int(now)),
    "plan": lambda it, now, valid, preferred: it.plan(int(now), int(valid), int(preferred)),
    "heard": lambda it, now, agent, preference, life: it.heard(int(now), data(agent), int(preference), int(life)),
}
nodes = {}
for line in sys.stdin:
    word, name, *rest = line.split()
    if word == "open":
        own, seed, node, life, room, numbers = rest
        nodes[name] = mip.Correspondent(data(own), data(seed), node=int(node), life=int(life), room=int(room), numbers=int(numbers))
        continue
    if word == "agent":
        own, preference, room, serves = rest
        nodes[name] = mip.HomeAgent(data(own), addresses(serves), preference=int(preference), room=int(room))
        continue
    it = nodes[name]
    if word == "close":
        it.close()
    elif word == "rows":
        put_rows(name, it, int(rest[0]))
    else:
        for words in filter(None, (told(name, answer) for answer in CALLS[word](it, *rest) or [])):
            print(words)
