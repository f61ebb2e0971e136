#!/usr/bin/env bash
# Memory and records of decks and desk, docs/pictures/memory.svg, with the sizes of one example.
cd "$(dirname "$0")/../.."
. docs/pictures/svg.sh

k=3 c=100 u=1000
classes=1024
deck=$((4 * c + classes))
desk=$((u + classes))

# 17088 as 17,088
thousands() { printf '%s' "$1" | sed ':a;s/\([0-9]\)\([0-9]\{3\}\)\($\|,\)/\1,\2\3/;ta'; }

# cells X Y WIDTH FILL WORD..: numbers side by side, each in a cell.
cells() {
  local x=$1 y=$2 width=$3 fill=$4 word
  shift 4
  for word; do
    box "$x" "$y" "$width" 34 "$fill"
    text $((x + width / 2)) $((y + 22)) "$word" "$MIDDLE"
    x=$((x + width))
  done
}

# heading Y WORDS DETAIL
heading() {
  text 30 "$1" "$2" "$BOLD font-size=\"15\""
  text 30 $(($1 + 20)) "$3" "$QUIET"
}

# place X Y NUMBER: where something begins, in numbers from the start.
place() { text "$1" "$2" "$3" "$MIDDLE $QUIET font-size=\"12\""; }

open_svg 960 812 "Memory and records of decks and desk" \
  "The decks' memory stands deck after deck; a deck's part is its slots of four numbers each, then \
1024 class counts, 4 bytes a number. The desk's memory is a number for each code, then 1024 class \
counts, 8 bytes a number. A deck's record is five numbers, the desk's ten; after the decks' \
records stands a message count for each."

text 30 32 "Sizes for k $k decks, c $c slots, u $(thousands $u) codes; places counted from 0" \
  "$QUIET"

# decks
heading 68 "Decks: lent memory, 4 bytes a number" \
  "k × (4 × c + 1024) = $(thousands $((k * deck))) numbers, $(thousands $((4 * k * deck))) bytes"
for ((j = 0; j < k; j++)); do
  box $((60 + 280 * j)) 104 280 38 "$DECK_FILL"
  text $((200 + 280 * j)) 128 "deck $j" "$MIDDLE $BOLD"
  place $((60 + 280 * j)) 158 "$(thousands $((j * deck)))"
done
place 900 158 "$(thousands $((k * deck)))"

# one deck's part
path "M340,164 L60,214" "$DASHED"
path "M620,164 L900,214" "$DASHED"
text 480 198 "a deck's part: 4 × c + 1024 = $(thousands $deck) numbers" "$MIDDLE"
box 60 214 300 38 "$DECK_FILL"
text 85 238 "slot 0" "$MIDDLE"
line 110 214 110 252
text 135 238 "slot 1" "$MIDDLE"
line 160 214 160 252
text 230 238 "..." "$MIDDLE"
line 300 214 300 252
text 330 238 "slot $((c - 1))" "$MIDDLE"
box 360 214 540 38 "#eef5ee"
text 400 238 "class 0" "$MIDDLE"
line 440 214 440 252
text 480 238 "class 1" "$MIDDLE"
line 520 214 520 252
text 665 238 "... draws of each class ..." "$MIDDLE"
line 810 214 810 252
text 855 238 "class 1023" "$MIDDLE"
place 60 268 0
place 110 268 4
place 160 268 8
place 360 268 $((4 * c))
place 900 268 "$(thousands $deck)"

# one slot
path "M110,274 L60,318" "$DASHED"
path "M160,274 L460,318" "$DASHED"
cells 60 318 100 "$DECK_FILL" code count overcount sent
text 476 332 "in each slot; unsent is count - overcount - sent;" "$QUIET"
text 476 350 "slots not in use are 0 from the start on" "$QUIET"

# the desk
heading 400 "Desk: lent memory, 8 bytes a number" \
  "u + 1024 = $(thousands $desk) numbers, $(thousands $((8 * desk))) bytes"
box 60 436 420 38 "$DESK_FILL"
text 100 460 "code 0" "$MIDDLE"
line 140 436 140 474
text 180 460 "code 1" "$MIDDLE"
line 220 436 220 474
text 305 460 "... its number ..." "$MIDDLE"
line 390 436 390 474
text 435 460 "code $((u - 1))" "$MIDDLE"
box 480 436 420 38 "#eef3fa"
text 520 460 "class 0" "$MIDDLE"
line 560 436 560 474
text 685 460 "... draws at threshold 1 ..." "$MIDDLE"
line 810 436 810 474
text 855 460 "class 1023" "$MIDDLE"
place 60 490 0
place 480 490 "$(thousands $u)"
place 900 490 "$(thousands $desk)"

# records
heading 540 "Records: single numbers, 8 bytes each, in this order" \
  "tracker_deck 5 numbers, 40 bytes; tracker_decks 32 × 5 + 32 = 192 numbers, 1,536 bytes; \
tracker_desk 10 numbers, 80 bytes"
text 60 596 "a deck"
cells 140 574 100 "$DECK_FILL" draws pending threshold "slots in use" forgotten
text 60 650 "all decks"
cells 140 628 100 "$DECK_FILL" "deck 0" "deck 1" ... "deck 31"
cells 540 628 100 white messages
text 656 640 "five numbers for each of 32 decks, then a" "$QUIET"
text 656 658 "message count for each; from k on unused" "$QUIET"
text 60 704 "the desk"
cells 140 682 100 "$DESK_FILL" total base threshold signals class
cells 640 682 52 "#eef3fa" phase deck low high sum
path "M640,728 L640,734 L900,734 L900,728"
text 770 754 "the phase: 0 idle, 1 collecting," "$MIDDLE $QUIET"
text 770 772 "2 probing, 3 announcing; those not" "$MIDDLE $QUIET"
text 770 790 "in use are 0" "$MIDDLE $QUIET"

close_svg
