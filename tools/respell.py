#!/usr/bin/env python3
"""Brings the names of definitions and lemmas to today's spelling, after the toolchain's own script: words in snake case, a dash only
between the names that a lemma joins. Run once, at the top of the repository; a second run is refused.

Functions of src/, exported names, strings and outputs keep their names. The crate `hex` is called `hexadecimal`, since the toolchain has
a library `hex`. Must-fail edits are turned by the same words."""
import os
import re
import sys

# A name that stood before and what stands for it. `_lem` marks a lemma that would have had its function's name.
NAMES = """
acceptedText accepted_text
after-rows after_rows
after-x after_x
afterHeader after_header
allCells all_cells
allDigits all_digits
all_digits all_digits_lem
alongLine along_line
answer-laws answer_laws
answerText answer_text
answered-laws answered_laws
anyByte any_byte
arrayLine array_line
arrayText array_text
at-start at_start
atLineStart at_line_start
bind-laws bind_laws
bit-laws bit_laws
bounded-laws bounded_laws
brace-laws brace_laws
built-laws built_laws
byteAt-in byte_at-in
byteFor byte_for
byteStored byte_stored
byteText byte_text
call-laws call_laws
cellLimit cell_limit
cellsFrom cells_from
checking-laws checking_laws
closing-laws closing_laws
columnBy column_by
comma-laws comma_laws
coordinateLine coordinate_line
count-laws count_laws
counting-laws counting_laws
counts-laws counts_laws
countsAs counts_as
dabbing-laws dabbing_laws
data-length data_length_lem
dataLength data_length
dataText data_text
decoderAt decoder_at
decoderOf decoder_of
define-laws define_laws
defineLine define_line
defineText define_text
digit-laws digit_laws
digitsFrom digits_from
digitsOf digits_of
end-laws end_laws
endByte end_byte
endIf end_if
endWidth end_width
endingOf ending_of
ends-laws ends_laws
fault-laws fault_laws
faultAt fault_at
faultNumber fault_number
fieldText field_text
first-row first_row
firstCell first_cell
flagOf flag_of
foreign-laws foreign_laws
fork-laws fork_laws
forkOf fork_of
fromHeight from_height
fromHot from_hot
fromInk from_ink
fromLine from_line
fromWidth from_width
getElem-drop get_elem-drop
given-laws given_laws
goodName good_name
hasLeft has_left
hashDefine hash_define
head-laws head_laws
headOf5 head_of5
headText head_text
headed-laws headed_laws
header-laws header_laws
header-says header_says
headerFor header_for
headerTold header_told
heightOf height_of
hex-laws hex_laws
hexByte hex_byte
hexDigit hex_digit
hexDigit-firm hex_digit-firm
hexDigit-grows hex_digit-grows
hexDigit-local hex_digit-local
hexDigit-mild hex_digit-mild
hexDigits hex_digits
hexDigits-firm hex_digits-firm
hexDigits-local hex_digits-local
hexDigits-mild hex_digits-mild
hexOf hex_of
hexOf→of hex_of→of
hexStart hex_start
hexTable hex_table
hexText hex_text
hexUnit hex_unit
hexUnit-firm hex_unit-firm
hexUnit-grows hex_unit-grows
hexUnit-local hex_unit-local
hexUnit-mild hex_unit-mild
hexUnit-numbered hex_unit-numbered
hot-x hot_x
hot-y hot_y
hotGiven hot_given
hotOf hot_of
hotText hot_text
hotspot-laws hotspot_laws
hotspotOn hotspot_on
hotspotText hotspot_text
image-laws image_laws
image-says image_says
imageTold image_told
in-header in_header
in-line in_line_lem
inLine in_line
inkAt ink_at
inkIn ink_in
inkOf ink_of
inkRead ink_read
inkText ink_text
inkTold ink_told
input-laws input_laws
integer-laws integer_laws
integerNumber integer_number
isBlank is_blank
isCell is_cell
isDigit is_digit
isLoose is_loose
isMark is_mark
isSound is_sound
item-laws item_laws
itemText item_text
joined-laws joined_laws
laterBuffer later_buffer
leadText lead_text
left-laws left_laws
limited-laws limited_laws
limitedOf limited_of
limitedReading limited_reading
line-laws line_laws
lineEnd line_end
lineEnd-checks line_end-checks
lineEnd-firm line_end-firm
lineEnd-fits line_end-fits
lineEnd-grows line_end-grows
lineEnd-local line_end-local
lineEnd-mild line_end-mild
lineEnd-numbered line_end-numbered
lineEnd-open line_end-open
lineEnd-sharp line_end-sharp
lineEnd-solid line_end-solid
lineFrom line_from
lineRest line_rest
lineStart line_start
lines-laws lines_laws
listedText listed_text
listedWithin listed_within
logIn log_in
logOf log_of
mask-laws mask_laws
maskM mask_m
maskX mask_x
movedAt moved_at
movedOn moved_on
name-laws name_laws
nameIn name_in
nameLength name_length
nameLimit name_limit
nameOn name_on
nameTold name_told
next-laws next_laws
nextNumber next_number
nextReport next_report
no-mask no_mask
number-laws number_laws
of-header of_header_lem
ofHeader of_header
ofImage of_image
ofRefusal of_refusal
of_image of_image_lem
of→hexOf of→hex_of
onTold on_told
only-31 only_31
onto-laws onto_laws
onwardAt onward_at
packed-laws packed_laws
packedFrom packed_from
packing-laws packing_laws
pairText pair_text
parseI32 parse_i32
parseU32 parse_u32
pass-laws pass_laws
pastByte past_byte
pastLine past_line
peekedAt peeked_at
pictureOf picture_of
pictured-laws pictured_laws
placeOn place_on
placeText place_text
put-laws put_laws
putting-laws putting_laws
quick-laws quick_laws
reach-laws reach_laws
reachesTo reaches_to
readingText reading_text
recordIn record_in
recordSize record_size
refusal-laws refusal_laws
refusalIn refusal_in
refusalOf refusal_of
reportAt report_at
reportOf report_of
restText rest_text
rewriteOf rewrite_of
rewrites-laws rewrites_laws
rowBytes row_bytes
sameBytes same_bytes
sending-laws sending_laws
separator-laws separator_laws
shown-laws shown_laws
sidesOf sides_of
sidesOn sides_on
sidesText sides_text
signed-laws signed_laws
signedFault signed_fault
size-laws size_laws
skip-laws skip_laws
sound-laws sound_laws
space-laws space_laws
spotText spot_text
startText start_text
step-laws step_laws
step-says step_says
storedIn stored_in
storing-laws storing_laws
symbol-laws symbol_laws
symbol-then symbol_then
take-laws take_laws
text-laws text_laws
textD text_d
textLimit text_limit
textM text_m
textX text_x
threeOf three_of
token-laws token_laws
tokenLimit token_limit
toldByte told_byte
toldCall told_call
toldCoordinate told_coordinate
toldError told_error
toldHeader told_header
toldImage told_image
toldIn told_in
toldLength told_length
toldLimited told_limited
toldList told_list
toldNext told_next
toldReading told_reading
toldRefusal told_refusal
toldRows told_rows
toldSpot told_spot
toldStep told_step
toldToken told_token
toldWriting told_writing
toldWritten told_written
tookAt took_at
two-newlines two_newlines
unsignedFault unsigned_fault
unsignedOf unsigned_of
value-laws value_laws
valueFrom value_from
valuesFrom values_from
verdict-laws verdict_laws
verdictOn verdict_on
wholeText whole_text
widthLine width_line
widthSymbol width_symbol
within-laws within_laws
write-laws write_laws
writeLength write_length
writeNumber write_number
writing-laws writing_laws
writingGiven writing_given
writingIn writing_in
written-laws written_laws
writtenIn written_in
"""

TABLE = dict(line.split() for line in NAMES.strip().split("\n"))
# What ends a name: blanks, brackets, separators, a backquote. A dot too: what follows it is a field or a member.
TOKEN = re.compile(r'"(?:[^"\\\n]|\\.)*"|[^\s(){}\[\];,.`:"]+')
CRATE = re.compile(r"\bRattle\.hex\.|\bhex::|\buse hex\b")


def turned(text, table):
    def name(found):
        token = found.group(0)
        return token if token.startswith('"') else table.get(token, token)

    text = TOKEN.sub(name, text)
    return CRATE.sub(lambda m: m.group(0).replace("hex", "hexadecimal"), text)


def main():
    if len(set(TABLE.values())) != len(TABLE):
        sys.exit("respell: two names fall together")
    if not os.path.isdir("crates/hex"):
        sys.exit("respell: done before")
    for folder, folders, files in os.walk("crates"):
        folders[:] = [f for f in folders if f != "out"]
        for file in files:
            if not file.endswith((".antt", ".rt", ".edit")):
                continue
            path = os.path.join(folder, file)
            with open(path, encoding="utf-8") as f:
                text = f.read()
            new = turned(text, TABLE)
            if new != text:
                with open(path, "w", encoding="utf-8") as f:
                    f.write(new)
    os.rename("crates/hex", "crates/hexadecimal")
    with open("crates.txt", encoding="utf-8") as f:
        text = f.read()
    with open("crates.txt", "w", encoding="utf-8") as f:
        f.write(re.sub(r"\bhex\b", "hexadecimal", text))


main()
