#!/usr/bin/env bash
# The sequence of one delivery with a close at two decks, docs/pictures/delivery.svg: the last draw
# of examples/two-decks.txt. Every number is read from the output, examples/two-decks.out, which the
# tests compare with what the program writes.
cd "$(dirname "$0")/../.."
. docs/pictures/svg.sh

settings=$(head -n 1 examples/two-decks.txt)
draw=$(tail -n 1 examples/two-decks.txt)
draws=$(($(wc -l <examples/two-decks.txt) - 1))
IFS=';' read -r k e p q c u <<<"$settings"
IFS=';' read -r from code class <<<"$draw"
follow=$((23 * k + 2))

# The messages of the last draw, one a line: kind, deck, a, b.
mapfile -t messages < <(grep -E '^[1-7] ' examples/two-decks.out | tail -n "$follow")
kinds=$(printf '%s\n' "${messages[@]}" | cut -d ' ' -f 1 | tr -d '\n')
round=5656
expected="123434$round$round$round$round$round$round$round$round$round${round}77"
if [ "$k $from" != "2 0" ] || [ "$kinds" != "$expected" ]; then
  printf 'examples/two-decks.txt does not end in a close with halvings: %s\n' "$kinds" >&2
  exit 1
fi
found=$(sed -n 's/^class //p' examples/two-decks.out)
number=$(awk -v code="$code" '$1 == 1 && $3 == code { n += $4 } END { print n }' \
  examples/two-decks.out)
read -r _ _ threshold base <<<"${messages[follow - 1]}"

# field MESSAGE PLACE: the place-th number of a message, from 1.
field() {
  local numbers
  read -r -a numbers <<<"${messages[$1]}"
  printf '%s' "${numbers[$2 - 1]}"
}

amount=$(field 1 3)
collected=$(($(field 3 3) + $(field 5 3)))
sum=$(($(field 7 4) + $(field 9 4)))
middle=$(field 6 3)
asked=""
for ((i = 10; i < follow - 2; i += 4)); do asked="$asked, $(field "$i" 3)"; done
if ((1000 * sum >= q * base)); then
  verdict="1000 × $sum ≥ $q × $base: high becomes $middle"
else
  verdict="1000 × $sum < $q × $base: low becomes $((middle + 1))"
fi

deck0=215
desk=530
deck1=845
top=64
bottom=1004

# sends Y FROM TO MESSAGE WORDS: an arrow with its four numbers and what they are.
sends() {
  local left=$2 inset=4
  if (($3 < $2)); then left=$3 inset=-4; fi
  line $(($2 + inset)) "$1" $(($3 - inset)) "$1" "$ARROW stroke-width=\"1.5\""
  text $((left + 84)) $(($1 - 7)) "${messages[$4]}" "$RIGHT $BOLD"
  text $((left + 96)) $(($1 - 7)) "kind $(field "$4" 1): $5"
}

# notes at the desk: beside an arrow to or from deck 0, beside one to or from deck 1
note_right() { text $((desk + 14)) "$1" "$2" "$QUIET"; }
note_left() { text $((desk - 14)) "$1" "$2" "$QUIET $RIGHT"; }

# phase Y HEIGHT WORDS: the desk's phase, on its lifeline.
phase() {
  box $((desk - 92)) "$1" 184 24 "$DESK_FILL" 'rx="12"'
  text "$desk" $(($1 + 17)) "$2" "$MIDDLE"
}

open_svg 940 1074 "One delivery with a close, at two decks" \
  "A sequence diagram with deck 0 on the left, the desk in the middle and deck 1 on the right. \
A draw at deck 0 sets off kinds 1 and 2. The desk polls both decks with kinds 3 and 4, asks both \
for class counts with kinds 5 and 6 ten times, and hands out kind 7 to each."

for place in $deck0 $desk $deck1; do
  line "$place" "$top" "$place" "$bottom" 'stroke-opacity="0.5" stroke-dasharray="2 3"'
done
box $((deck0 - 60)) 28 120 36 "$DECK_FILL" 'rx="5"'
text $deck0 51 "deck 0" "$MIDDLE $BOLD"
box $((desk - 60)) 28 120 36 "$DESK_FILL" 'rx="5"'
text $desk 51 "desk" "$MIDDLE $BOLD"
box $((deck1 - 60)) 28 120 36 "$DECK_FILL" 'rx="5"'
text $deck1 51 "deck 1" "$MIDDLE $BOLD"

# the draw
phase 80 "idle"
line 24 128 $((deck0 - 4)) 128 "$ARROW stroke-width=\"1.5\""
text 24 121 "draw $draw" "$BOLD"
text 24 147 "deck, code, class" "$QUIET"
text 24 171 "unsent of code $code and" "$QUIET"
text 24 189 "pending reach $amount," "$QUIET"
text 24 207 "the threshold so far" "$QUIET"

sends 160 $deck0 $desk 0 "code $code, amount $amount"
note_right 165 "the number of code $code becomes $number"
sends 200 $deck0 $desk 1 "amount $amount"
note_right 197 "total becomes $((base - collected));"
note_right 215 "signals become $k = k: the round closes"

# the poll
phase 226 "collecting from deck 0"
sends 282 $desk $deck0 2 "a poll"
sends 316 $deck0 $desk 3 "pending was $(field 3 3)"
note_right 321 "total gains $(field 3 3)"
phase 332 "collecting from deck 1"
sends 388 $desk $deck1 4 "a poll"
sends 422 $deck1 $desk 5 "pending was $(field 5 3)"
note_left 409 "total gains $(field 5 3), base becomes $base,"
note_left 427 "threshold $e × $base / (3000 × $k) = $threshold"

# ten halvings, the first drawn
box 150 446 760 352 none "$DASHED rx=\"6\""
box 150 446 196 24 white
text 162 463 "ten times, $((4 * 10)) messages" "$BOLD"
phase 478 "probing 0 to 1023"
sends 546 $desk $deck0 6 "class $middle"
note_right 551 "middle $middle"
sends 580 $deck0 $desk 7 "$(field 7 4) draws up to $middle"
note_right 585 "sum $(field 7 4)"
sends 620 $desk $deck1 8 "class $middle"
sends 654 $deck1 $desk 9 "$(field 9 4) draws up to $middle"
note_left 659 "sum $(field 7 4) + $(field 9 4) = $sum"
blank $((desk - 160)) 672 320 24
text $desk 690 "$verdict" "$MIDDLE"
blank $((desk - 10)) 710 20 82
line 190 706 870 706 "stroke-opacity=\"0.4\""
text $desk 730 "likewise for the middles ${asked#, }," "$MIDDLE"
text $desk 752 "kinds 5 and 6 with each deck every time, until low = high" "$MIDDLE"
text $desk 782 "the class becomes $found" "$MIDDLE $BOLD"

# the announcements
phase 816 "announcing to deck 0"
path "M$((desk + 170)),860 L$((desk + 4)),860" "$ARROW $DASHED"
text $((desk + 178)) 864 "next asked for" "$QUIET"
sends 880 $desk $deck0 $((follow - 2)) "threshold $threshold, base $base"
phase 894 "announcing to deck 1"
path "M$((desk - 170)),938 L$((desk - 4)),938" "$ARROW $DASHED"
text $((desk - 178)) 942 "next asked for" "$QUIET $RIGHT"
sends 958 $desk $deck1 $((follow - 1)) "threshold $threshold, base $base"
phase 972 "idle, signals 0"

text 24 1036 "Settings $settings: k $k, share p $p with leeway e $e, rank q $q, c $c, u $u. The \
last of the $draws draws"
text 24 1058 "in examples/two-decks.txt; $follow messages follow it, as many as may follow one \
draw (23 × k + 2)."
close_svg
