"""A second megaswitch after docs/FORMATS.md, to compare the proved one with.

It shares no code and no definition with it, and nothing about it is proved. command_words.py reads the words,
flow_text.py edits, over the table of fields in flow_fields.py, steps.py given steps, and captures.py traces; generator.py
makes the files of a number. flow_rules.py has what edits do, classifier.py which rule decides, frame_key.py what a frame
is matched by, translation.py what the tables make of a packet, caches.py what is kept of that and by which steps,
schedule.py when these are taken, and rewriting.py what becomes of the bytes of a frame. dumps.py tells all that at the
end. switch.py is the whole: words and files in, status, text and files out; refusals.py has the statuses.

tracer.py is the tracer: words and a file of edits in, status and text out.

checks/simulate runs it on the words of `megaswitch`, and examples/*/expected was written so.
"""
