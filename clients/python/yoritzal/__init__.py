"""A client of Yoritzal: requests, replies with their proofs, and the rules for clients. README.md shows its use."""
from .aio import AsyncClient, AsyncSession, open_client
from .certificates import CARRIED, ISSUED, RELAYED, Body, body_of, opens, read_body, sealed, visited
from .client import MOST_UNSETTLED, Answer, Channel, Client, Fate, NotGranted
from .connection import Broken, Connection, connect
from .fields import Malformed
from .journals import Journals, read_journals
from .names import Names, NoPrincipal
from .numbers import FileNumbers, InUse, TimeNumbers
from .proofs import MOST_LINES, Proof, ProofFault, TooManyLines, read_proof
from .replies import (BadSeal, CertificateRefused, ChannelFull, CommonsFull, Denied, Early, Expired, Granted, JournalFull,
                      MalformedRequest, Missing, NoEntry, NotHeld, OutOfMemory, PullFailed, RelayFailed, Replayed, Reply,
                      Unbelieved, UnknownChannel, UnknownObject, WithdrawnFull, believed, is_unsealed, read_reply)
from .requests import (CONTROL, MANAGE, READ, WRITE, Discard, Entry, Forget, Hold, Operation, Read, Request, SetList,
                       Sweep, Withdraw, Write)
from .sessions import Pool, Session
from .tags import is_tag, tag
from .terms import And, As, For, Key, Name, Quoting
from .wallet import NoWallet, Wallet
