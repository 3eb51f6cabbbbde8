"""Runs that remember conclusions which rest on anchors and on what is common: nothing shows it."""
from conversation import Grant, talk
from formats import expired, missing
from .nodes import ALICE, BOB, ask, by_anchor, handed, handing, no_alice, node
from .objects import did, discard, forget, set_list, withdraw
from .shards import again, granted

C1, SHOWN, C4 = handing(), handed(), handed(4)
OTHER = handed(9)


def told():
    """A name, what it shows, the file, the clock, and what is asked and answered."""
    common, both, two = node(commons=[SHOWN]), node(commons=[SHOWN, C4]), node(shards=2, commons=[SHOWN])
    start = [(ask(2, 1), granted(2, 1)), (forget(2), did(1, 2))]
    lists = [(15, ALICE), (1, BOB)]
    return [
        ("a conclusion that is used again", "The proof that was kept is let go, and it is proved again.", common, [1000],
             [*start, (ask(2, 2), granted(2, 2, 5))]),
        ("what it cites is discarded", "It can't be used any more.", common, [1000],
         [(ask(2, 1), granted(2, 1)), (discard(C1), did(1, 2)), (ask(2, 2), no_alice(2, 2, 5))]),
        ("what it cites is discarded, and presented", "It is the channel's own then.", common, [1000],
         [(ask(2, 1), granted(2, 1)), (discard(C1), did(1, 2)), (ask(2, 2, SHOWN), granted(2, 2, 5)), (ask(4, 1), no_alice(4, 1, 7))]),
        ("what it cites has ended", "It can't be used any more.", common, [1000, 2000], [(ask(2, 1), granted(2, 1)), (ask(2, 2), expired(2, 2, C1, place=2))]),
        ("what it cites is withdrawn", "It can't be used any more.", common, [1000],
         [(ask(2, 1), granted(2, 1)), (withdraw(1), did(1, 2)), (ask(2, 2), no_alice(2, 2, 5))]),
        ("what it cites stands at another place", "A certificate of the channel's own stands before it.", common, [1000],
         [*start, (ask(2, 2, OTHER), granted(2, 2, 5)), (forget(2, number=2), did(2, 7, kept=1)), (ask(2, 3), granted(2, 3, 9))]),
        ("two conclusions, in turn", "There is room for one, or for both.", both, [1000],
         [(ask(2, 1), granted(2, 1)), (ask(4, 1), granted(4, 1, 2)), (forget(2), did(1, 4)), (forget(4, number=2), did(2, 7, kept=1)),
                (ask(2, 2), granted(2, 2, 9)),
          (ask(4, 2), granted(4, 2, 11)), (ask(2, 3), again(2, 3, 13))]),
        ("a conclusion by an anchor alone", "It cites nothing.", node(), [1000],
             [(ask(1, 1), by_anchor(1)), (forget(1, number=2), did(2, 2, kept=1)), (ask(1, 3), by_anchor(3, 4))]),
        ("a conclusion of another entry", "Bob is not alice.", node(lists, commons=[SHOWN]), [1000],
         [(ask(2, 1), granted(2, 1)), (set_list([(1, BOB)]), did(1, 2)), (ask(2, 2), missing(2, 2, BOB, place=4))]),
        ("a conclusion at another shard", "Each shard has what is common for itself.", two, [1000],
         [(ask(2, 1), granted(2, 1)), (discard(C1), did(1, shard=1)), (ask(2, 2), no_alice(2, 2, 3)), (ask(3, 1), no_alice(3, 1, 3, 1))]),
        ("a conclusion by what was presented", "It is held for its channel, and not remembered.", node(), [1000],
         [(ask(2, 1, SHOWN), granted(2, 1)), (forget(2), did(1, 2)), (ask(2, 2), no_alice(2, 2, 5))]),
        ("a conclusion by what is common and what is presented", "Two certificates in a row.", node(commons=[SHOWN]), [1000],
         [(ask(4, 1, handed(4, issuer=2)), Grant(4, 1, 2)), (forget(4), did(1, 2)), (ask(4, 2), no_alice(4, 2, 5))]),
    ]


def lemmas():
    return [talk(f"{title}: room for {room}", about, file, pairs, clock=clock, words=["run", "--lemmas", room])
            for title, about, file, clock, pairs in told() for room in ("0", "1", "1024")]


THEMES = [("lemmas", "Runs that remember what they concluded, with room for none, for one and for as many as there may be.", lemmas)]
