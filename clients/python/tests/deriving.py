"""Whether one speaks for another, by docs/CALCULUS.md alone: all facts about a table of principals, until the rules give no more."""
from yoritzal import And, As, For, Key, Name, Quoting
from yoritzal.certificates import parts


def speaks(subject, who, anchors, bodies):
    """Whether the subject speaks for the other, by pairs of a key's and a name's numbers, and by certificates."""
    stated = [(body.speaker, (body.left, body.right)) for body in bodies]
    table = parts(subject, who, *(each for speaker, statement in stated for each in (speaker, *statement)))
    anchored = {(Key(key), Name(name)) for key, name in anchors}
    facts = {(one, one) for one in table} | {pair for pair in anchored if set(pair) <= table}
    said = set(stated)
    while True:
        count = len(facts) + len(said)
        facts |= set(_of_forms(table, facts)) | {(one, third) for one, other in facts for also, third in facts if other == also}
        said |= {(other, statement) for speaker, statement in said for one, other in facts if speaker == one}
        said |= {(whole, statement) for whole in table if isinstance(whole, And)
                 for speaker, statement in said if speaker == whole.left and (whole.right, statement) in said}
        facts |= {statement for speaker, statement in said if _is_granted_by(speaker, *statement)}
        if len(facts) + len(said) == count:
            return (subject, who) in facts


def _is_granted_by(speaker, left, right):
    """A hand-off by the right one itself, or a delegation by the one quoted."""
    delegated = isinstance(left, Quoting) and left.right == speaker and right == For(left.left, left.right)
    return speaker == right or delegated


def _of_forms(table, facts):
    """What follows of how principals are made."""
    for whole in table:
        if isinstance(whole, And):
            yield from ((whole, part) for part in (whole.left, whole.right))
            yield from ((one, whole) for one in table if (one, whole.left) in facts and (one, whole.right) in facts)
        if isinstance(whole, As):
            yield whole.who, whole
            yield from ((other, whole) for other in table if isinstance(other, As) and other.role == whole.role
                        and (other.who, whole.who) in facts)
        if isinstance(whole, (Quoting, For)):
            yield from ((other, whole) for other in table if type(other) is type(whole)
                        and (other.left, whole.left) in facts and (other.right, whole.right) in facts)
