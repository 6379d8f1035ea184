"""Runs captures of any length in parts, and puts together what one switch would have written.

What a run gives is cut by time (`cutting`) where the frames of all ports are told apart by their times, so that each
part has the frames of one stretch of time and no other. A frame is decided by the last version of its block, which
doesn't depend on the frames before it: so a part that begins with the rules of that time decides its frames as the
whole run does.

- `words`: the command line. `program`: the program that runs parts, and what it says of edits and mirrors.
- `edits`: which edits a part is given, and how. `captures`: traces as they are read. `cutting`: where they are cut.
- `parts`: one part, from its inputs to its files. `crew` runs parts by processes of this machine, `cluster` by Dask,
  and `remote` is what workers of Dask do.
- `joining`: what parts have made becomes one; `flows` does so for flows, and `appending` for captures.
- `helpers`: processes of the tool itself. `progress`: how far it is. `refusals`: how a run ends.
"""
