#!/usr/bin/env python3
"""Gives the definitions and lemmas of this repository the spelling of Rattle's own: words in snake case, facts in camel
case, a dash only where it joins a definition's name to what a lemma says of it.

usage: python3 tools/respell.py      at the top of the repository, once, on the commit that port.py made

Rewrites specs/, proofs/, the clauses in src/ and the texts of the must-fail edits in place. Prose in comments and the
names that Rattle itself makes for goals and steps stay as they are.
"""

import os
import re
import sys

NAMES = """
Calls-answer CallsAnswer
Channels-keep-laws ChannelsKeepLaws
Each-event-once EachEventOnce
Empty-write EmptyWrite
Enough-log EnoughLog
Enough-notes EnoughNotes
Equal-after-writes EqualAfterWrites
Equal-totals EqualTotals
Equal-waiting EqualWaiting
First-live FirstLive
Handed-back HandedBack
Header-counts HeaderCounts
Ids-registered IdsRegistered
Known-answers KnownAnswers
Known-faults KnownFaults
Known-lines KnownLines
Latest-read LatestRead
Line-tells LineTells
Lines-tell LinesTell
Logged-all LoggedAll
Longer-keeps LongerKeeps
Numbers-given NumbersGiven
One-feed OneFeed
Open-at-end OpenAtEnd
Port-laws PortLaws
Ports-keep-laws PortsKeepLaws
Reader-holds ReaderHolds
Reader-of ReaderOf
Readers-hold ReadersHold
Reads-back ReadsBack
Reads-runs ReadsRuns
Run-is-one-write RunIsOneWrite
Run-laws RunLaws
Run-of-writes RunOfWrites
Same-but-readers SameButReaders
Size-laws SizeLaws
Size-rule SizeRule
Smallest-doubling SmallestDoubling
Stays-sound StaysSound
Text-tells TextTells
Was-open WasOpen
Whole-run WholeRun
Would-hand WouldHand
Would-size WouldSize
Would-write WouldWrite
accepted-since accepted_since
accepted-to-read accepted_to_read
after-close after_close
after-register after_register
agree-grown agree_grown
all-events all_events
all-shut all_shut
all-unread all_unread
alloc-full alloc_full
alloc-sound alloc_sound
and-not and_not
and-rest and_rest
any-calls any_calls
any-open-from any_open_from
any-open-is any_open_is
any-open-joined any_open_joined
as-it-is as_it_is
as-ledger as_ledger
at-end at_end
at-fits at_fits
available-then available_then
batch-means batch_means
begins-fault begins_fault
begins-full begins_full
begins-opened begins_opened
begins-otherwise begins_otherwise
begins-refused begins_refused
begins-refused-full begins_refused_full
begins-with begins_with
by-outcome by_outcome
bytes-joined bytes_joined
bytes-later bytes_later
bytes-words bytes_words
calls-answer calls_answer
capped-end capped_end
capped-next capped_next
carries-at carries_at
carries-fault carries_fault
carries-full carries_full
carries-more carries_more
carries-none carries_none
channel-port channel_port
channels-keep-laws channels_keep_laws
close-then-register close-then_register
colon-in colon_in
copied-room copied_room
cut-rest cut_rest
decimal-digits decimal_digits
deeper-end deeper_end
deeper-next deeper_next
default-size default_size
drawn-none drawn_none
drop-append-ge drop-append_ge
each-event-once each_event_once
each-freed each_freed
earlier-decides earlier_decides
empty-write empty_write
ends-not-never ends-not_never
equal-after-writes equal_after_writes
equal-channels equal_channels
equal-runs equal_runs
equal-totals equal_totals
equal-totals-beside equal_totals_beside
equal-waiting equal_waiting
fault-of fault_of
first-size first_size
fits-as-is fits-as_is
freed-left freed_left
freedAt freed_at
from-double from_double
from-doubled from_doubled
from-shut from_shut
getD-map-at get_or-map_at
getD-replicate-any get_or-replicate_any
getD-shifted get_or-shifted
given-was-shut given_was_shut
half-a-size half_a_size
handed-all handed_all
handed-to handed_to
heads-tell heads_tell
history-end history_end
holds-append holds_append
ids-closed ids_closed
if-empty if_empty
in-steps in_steps
is-empty is_empty
is-open-if is-open_if
is-open-joined is-open_joined
is-open-of is-open_of
joined-append joined_append
joined-cancel joined_cancel
joined-holds joined_holds
joined-none joined_none
joined-runs joined_runs
joined-twice joined_twice
just-opened just_opened
keeps-sound keeps_sound
known-answers known_answers
known-cases known_cases
last-after last_after
last-after-more last_after-more
last-after-none last_after-none
latest-first latest_first
ledger-held ledger_held
ledger-in ledger_in
ledger-of ledger_of
ledger-with ledger_with
legs-among legs_among
legs-counted legs_counted
legs-left legs_left
length-spaced-more length-spaced_more
length-spaced-take length-spaced_take
length-then-one length-then_one
length-up-from length-up_from
length-waiting-in length-waiting_in
line-tells line_tells
lines-tell lines_tell
little-lag little_lag
live-legs live_legs
log-past log_past
longer-keeps longer_keeps
looked-at looked_at
map-joined-none map-joined_none
map-joined-shut map-joined_shut
map-joined-twice map-joined_twice
mark-of-letters mark_of_letters
most-readers most_readers
near-then near_then
nearest-ahead nearest_ahead
nearest-least nearest_least
needs-shift needs_shift
never-empty never_empty
never-smaller never_smaller
new-ledger new_ledger
new-reader new_reader
new-sound new_sound
next-number next_number
no-count no_count
no-opening no_opening
no-readers no_readers
nobody-available nobody_available
nobody-open nobody_open
none-later none_later
none-open-of none_open_of
not-empty not_empty
not-gave not_gave
not-misplaced not_misplaced
not-open not_open
not-said not_said
notes-past notes_past
now-size now_size
number-taken number_taken
numbers-given numbers_given
of-all of_all
of-shut of_shut
on-channel on_channel
on-ticket on_ticket
once-smallest once_smallest
one-byte-later one_byte_later
one-feed one_feed
open-apart open_apart
open-at-of open_at_of
open-count open_count
open-count-joined open_count-joined
open-count-of open_count-of
open-count-set open_count-set
open-found open_found
open-not-shut open_not_shut
open-numbers open_numbers
open-one open_one
open-used open_used
open-within open_within
opening-refusal opening_refusal
other-channel other_channel
other-read other_read
other-slots other_slots
other-write other_write
others-fit others_fit
over-all over_all
over-at over_at
over-more over_more
own-slots own_slots
past-gap past_gap
paste-byte-then paste_byte_then
paste-handed paste_handed
paste-line paste_line
paste-then paste_then
place-grown place_grown
places-more places_more
places-set places_set
plain-colon plain_colon
plain-digits plain_digits
plain-fields plain_fields
plain-letters plain_letters
plain-number plain_number
plain-said plain_said
plain-spaced plain_spaced
port-laws port_laws
ports-keep-laws ports_keep_laws
public-calls public_calls
put-byte-then put_byte_then
put-line put_line
reaching-sound reaching_sound
reaching-twice reaching_twice
reader-after reader_after
reader-at-of reader_at_of
reader-holds reader_holds
reader-of reader_of
readers-hold readers_hold
reads-back reads_back
recent-stored-one recent-stored_one
record-at record_at
records-at records_at
records-from records_from
registers-at registers_at
rest-fault rest_fault
rest-is rest_is
rest-last rest_last
room-to-free room-to_free
run-is-one-write run_is_one_write
run-laws run_laws
run-leads run_leads
run-told run_told
run-turn run_turn
runs-are-waiting runs_are_waiting
runs-of-reader runs_of_reader
runs-tell runs_tell
runs-unread runs_unread
runs-whole runs_whole
runs-wrap runs_wrap
same-front same_front
same-generation same_generation
same-opening same_opening
same-reader same_reader
same-readers same_readers
second-opening second_opening
shifted-all shifted_all
short-after short_after
size-laws size_laws
size-rule size_rule
size-then size_then
sized-at sized_at
sized-body sized_body
sized-marked sized_marked
sized-two sized_two
slot-count slot_count
small-numbers small_numbers
small-opening small_opening
small-refusal small_refusal
small-two small_two
some-is-not-none some_is_not_none
some-open-of some_open_of
somebody-available somebody_available
somebody-open somebody_open
stays-sound stays_sound
still-shut still_shut
stops-spaced stops_spaced
stops-tail stops_tail
tails-tell tails_tell
text-tells text_tells
ticket-cases ticket_cases
ticket-events ticket_events
ticket-rest ticket_rest
to-open to_open
twice-at-least twice_at_least
two-at-least two_at_least
two-or-more two_or_more
unknown-first unknown_first
unknown-later unknown_later
unread-count unread_count
unread-lists unread_lists
unread-place unread_place
until-one until_one
up-from-end up_from_end
up-from-next up_from_next
used-then used_then
waiting-for waiting_for
waiting-grown-inner waiting-grown_inner
waiting-grown-whole waiting-grown_whole
waiting-in waiting_in
waiting-is waiting_is
was-live was_live
was-open was_open
with-advanced with_advanced
with-alloc with_alloc
with-events with_events
with-joined with_joined
with-left with_left
with-readers with_readers
with-removed with_removed
with-set with_set
with-slots with_slots
would-hand would_hand
would-size would_size
would-write would_write
would-write-when would_write-when
wrote-to wrote_to
"""

TABLE = dict(row.split() for row in NAMES.strip().splitlines())
TOKEN = re.compile(r"[^\s(){}\[\].,;:λ`\"]+")


def respelled(line, comment):
    """The line with each name of the table respelled, and names unquoted, up to the comment that the mark begins."""
    start = re.search(r"(?:^|\s)" + comment + r"(?:\s|$)", line)
    end = start.start() if start else len(line)
    text = re.sub("«(?!record»)([^»]*)»", r"\1", line[:end])
    return TOKEN.sub(lambda m: TABLE.get(m.group(), m.group()), text) + line[end:]


def main():
    changed = 0
    for folder, dirs, files in os.walk("crates"):
        dirs[:] = sorted(d for d in dirs if d != "out")
        for name in sorted(files):
            comment = {".antt": "--", ".rt": "//", ".edit": "//"}.get(os.path.splitext(name)[1])
            if comment is None:
                continue
            path = os.path.join(folder, name)
            with open(path, encoding="utf-8") as f:
                old = f.read()
            new = "\n".join(respelled(line, comment) for line in old.split("\n"))
            if new != old:
                with open(path, "w", encoding="utf-8") as f:
                    f.write(new)
                changed += 1
    print(f"respell: {len(TABLE)} names, {changed} files", file=sys.stderr)


if __name__ == "__main__":
    main()
