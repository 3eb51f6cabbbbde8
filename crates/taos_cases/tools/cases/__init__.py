"""The themes in the order in which they run: a file's name, what it is about, and what makes its cases."""
from . import beginning, carrying, checks, commands, faults, files, journaled, judging, lanes, lemmas, logins, minting, objects, options, paths, presented, proofs, pulling, refusing, relaying, relays, replays, rules, shards, table, texts, withdrawing

THEMES = paths.THEMES + objects.THEMES + files.THEMES + texts.THEMES + faults.THEMES + shards.THEMES + relays.THEMES
THEMES += logins.THEMES + presented.THEMES + proofs.THEMES + checks.THEMES + rules.THEMES + relaying.THEMES + minting.THEMES + lanes.THEMES
THEMES += commands.THEMES + carrying.THEMES + pulling.THEMES + replays.THEMES + journaled.THEMES + judging.THEMES + options.THEMES
THEMES += beginning.THEMES + table.THEMES + withdrawing.THEMES + lemmas.THEMES + refusing.THEMES
THEMES += faults.LAST
# Those that the built program alone is tried on, since they are many of one kind.
TRIED = judging.TRIED
