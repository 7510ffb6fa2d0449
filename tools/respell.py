#!/usr/bin/env python3
"""Respells this repository's own definitions and lemmas: functions and lemmas in snake case, facts in camel case.

usage: python3 tools/respell.py     at the top of the repository, once, after the toolchain's own script for older repositories

Only .rt and .antt files in crates/ are changed, and in them neither texts in quotes nor comments. A dash stays in the
name of a lemma where it joins two names (`share-length`). The library's All by recursion goes by its own name.
"""
import os
import re

NAMES = """
Always-balanced AlwaysBalanced
Asks-back AsksBack
Begins-line BeginsLine
Command-fits CommandFits
Fits-i64 FitsI64
Fits-u64 FitsU64
Fits-u8 FitsU8
Keeps-laws KeepsLaws
Lawful-reply LawfulReply
Made-unless MadeUnless
Weights-fit WeightsFit
account-then account_then
accountsFault accounts_fault
adds-up adds_up
afterPost after_post
all-clipped all_clipped
always-balanced always_balanced
amountOr amount_or
balanceAmong balance_among
balanceOf balance_of
balanceTold balance_told
begins-at begins_at
blank-line blank_line
bookOf book_of
bookReason book_reason
both-assoc both_assoc
carriage-return carriage_return
changes-cancel changes_cancel
clipped-at clipped_at
clipped-same clipped_same
commandOf command_of
commandText command_text
comment-mark comment_mark
decimal-last decimal_last
decimal-then decimal_then
digit-ink digit_ink
doneOr done_or
drop-next drop_next
entriesOf entries_of
entryText entry_text
every-weaker every_weaker
fair-after fair_after
fair-balanced fair_balanced
fair-next fair_next
fair-reached fair_reached
fault-places fault_places
fault-size fault_size
faultText fault_text
few-digits few_digits
filePrinted file_printed
first-line first_line
flat-outside flat_outside
flat-within flat_within
flatFault flat_fault
flatOf flat_of
fresh-even fresh_even
fresh-sound fresh_sound
hasWords has_words
heldIn held_in
hourLimit hour_limit
ifTaken if_taken
isMistake is_mistake
isParts is_parts
joined-plain joined_plain
kept-sound kept_sound
keptBy kept_by
keyFault key_fault
keyWeights key_weights
kind-then kind_then
kindText kind_text
lastAccount last_account
laws-of-parts laws_of_parts
laws-of-refused laws_of_refused
layerText layer_text
leading-word leading_word
light-same light_same
limited-then limited_then
line-alone line_alone
line-break line_break
line-outside line_outside
line-within line_within
lineCode line_code
lineFault line_fault
lineLimit line_limit
linePrinted line_printed
lineText line_text
lineValue line_value
linesPrinted lines_printed
linesText lines_text
list-tail list_tail
listFault list_fault
listFirst list_first
listSecond list_second
listedText listed_text
lowest-size lowest_size
mapOk map_ok
meantBy meant_by
meantText meant_text
memory-words memory_words
mistakenIn mistaken_in
mistakenLine mistaken_line
moneyOf money_of
more-digits more_digits
mostPlaces most_places
moved-total moved_total
moved-within moved_within
near-above near_above
near-sizes near_sizes
neg-times neg_times
newBook new_book
nextPart next_part
no-break no_break
no-comment no_comment
no-tail no_tail
noNote no_note
not-minus not_minus
not-read not_read
noteBack note_back
noteText note_text
number-back number_back
number-then number_then
numbers-back numbers_back
numbersOn numbers_on
onBook on_book
onBookOf on_book_of
one-digit one_digit
only-either only_either
only-there only_there
onward-is onward_is
opening-next opening_next
openingPrinted opening_printed
outcome-words outcome_words
outputOf output_of
over-ext over_ext
over-more over_more
over-only over_only
overFault over_fault
partText part_text
past-blanks past_blanks
place-more place_more
place-outside place_outside
placesFault places_fault
plain-command plain_command
plain-key plain_key
plain-list plain_list
plainText plain_text
posted-even posted_even
posted-sound posted_sound
postingFault posting_fault
postingText posting_text
postingsOr postings_or
product-within product_within
productLimit product_limit
put-add put_add
put-none put_none
put-size put_size
reasonText reason_text
refusalText refusal_text
replyBy reply_by
replyText reply_text
replyTo reply_to
restPrinted rest_printed
rightText right_text
roomFault room_fault
roomLimit room_limit
rowPrinted row_printed
rowText row_text
rowsText rows_text
run-total run_total
running-rises running_rises
running-runs running_runs
running-within running_within
saidFault said_fault
saidKey said_key
saidLine said_line
say-balance say_balance
say-balances say_balances
say-book say_book
say-flat say_flat
say-journal say_journal
say-line say_line
say-list say_list
say-post say_post
say-room say_room
say-spread say_spread
section-less section_less
share-at share_at
sheetAfter sheet_after
signed-then signed_then
signedIn signed_in
size-turned size_turned
sizeFault size_fault
sizeLimit size_limit
some-length some_length
some-weight some_weight
someMistaken some_mistaken
someWords some_words
spreadFault spread_fault
spreadReason spread_reason
spreadReply spread_reply
starts-blank starts_blank
stateAfter state_after
stateNext state_next
stateReached state_reached
stateText state_text
straightOf straight_of
sum-small sum_small
sumText sum_text
tableText table_text
taken-since taken_since
taken-sound taken_sound
taken-state taken_state
takesMemory takes_memory
then-made then_made
took-back took_back
tookKind took_kind
tookSigned took_signed
uncommented-take uncommented_take
unlessFault unless_fault
upto-more upto_more
upto-rises upto_rises
upto-whole upto_whole
weekCode week_code
weekValue week_value
weight-read weight_read
weightLimit weight_limit
weightText weight_text
weights-words weights_words
weightsText weights_text
widest-account widest_account
word-glyphs word_glyphs
word-then word_then
words-or-none words_or_none
line-next line_next
line-opens line_opens
two-writes two_writes
digits-bad digits_bad
digits-end digits_end
read-over read_over
read-end read_end
text-next text_next
text-more text_more
text-all text_all
heavy-found heavy_found
heavy-more heavy_more
heavy-none heavy_none
next-is next_is
advanced-is advanced_is
flatKey flat_key
numbersKey numbers_key
lastWeekKey last_week_key
totalsBook totals_book
journalBook journal_book
"""
TABLE = dict(line.split() for line in NAMES.split("\n") if line)
NAME = re.compile("(?<![\\w'-])(" + "|".join(sorted(map(re.escape, TABLE), key=len, reverse=True)) + ")(?![\\w'-])")
PIECE = re.compile(r'"(?:[^"\\]|\\.)*"|//[^\n]*|(?<![^\s])--[^\n]*')


ALIAS = "AllByRecursion as All"
ALL = re.compile(r"(?<![\w'-])All(?![\w'-])")


def unaliased(text):
    if ALIAS not in text:
        return text
    lines = text.replace(ALIAS, "AllByRecursion").split("\n")
    return "\n".join(l if l.startswith(("use ", "ghost use ")) else ALL.sub("AllByRecursion", l) for l in lines)


def respelled(text):
    text = unaliased(text)
    out, at = [], 0
    for kept in PIECE.finditer(text):
        out.append(NAME.sub(lambda m: TABLE[m.group(1)], text[at:kept.start()]))
        out.append(kept.group())
        at = kept.end()
    out.append(NAME.sub(lambda m: TABLE[m.group(1)], text[at:]))
    return "".join(out)


def main():
    changed = 0
    for folder, dirs, files in os.walk("crates"):
        dirs[:] = sorted(d for d in dirs if d != "out")
        for name in sorted(files):
            if not name.endswith((".rt", ".antt")):
                continue
            path = os.path.join(folder, name)
            with open(path, encoding="utf-8") as f:
                old = f.read()
            new = respelled(old)
            if new != old:
                with open(path, "w", encoding="utf-8") as f:
                    f.write(new)
                changed += 1
    print(f"respell: {changed} files changed")


main()
