#!/usr/bin/env bash
# Decks, desk and the seven kinds of message between them, docs/pictures/overview.svg.
cd "$(dirname "$0")/../.."
. docs/pictures/svg.sh

# deck Y NAME: a deck with the draws that come to it.
deck() {
  line 30 $(($1 + 40)) 126 $(($1 + 40)) "$ARROW stroke-width=\"1.5\""
  text 30 $(($1 + 31)) "draws" ""
  box 130 "$1" 170 80 "$DECK_FILL" 'rx="6" stroke-width="1.5"'
  text 215 $(($1 + 26)) "$2" "$MIDDLE $BOLD font-size=\"15\""
  text 215 $(($1 + 48)) "c slots with codes," "$MIDDLE"
  text 215 $(($1 + 66)) "1024 class counts" "$MIDDLE"
}

# kind Y NUMBER WORDS DIRECTION: a row between decks and desk.
kind() {
  if [ "$4" = right ]; then line 342 "$1" 606 "$1" "$ARROW stroke-width=\"1.5\""; fi
  if [ "$4" = left ]; then line 606 "$1" 342 "$1" "$ARROW stroke-width=\"1.5\""; fi
  text 352 $(($1 - 7)) "$2" "$BOLD"
  text 372 $(($1 - 7)) "$3"
}

open_svg 970 446 "Decks, desk and the messages between them" \
  "Decks 0 to k - 1 on the left, each with slots and class counts, take draws. Kinds 1 and 2 go to \
the desk as draws come; when k signals have come the desk closes the round with kinds 3 to 7. The \
desk on the right answers the list of codes and the volume class."

deck 60 "deck 0"
deck 176 "deck 1"
text 215 288 "..." "$MIDDLE $BOLD"
deck 310 "deck k - 1"
text 30 416 "a draw: deck, code," "$QUIET"
text 30 434 "volume class" "$QUIET"

path "M312,52 L324,52 L324,398 L312,398"

text 474 24 "the seven kinds of message" "$MIDDLE $BOLD"
text 474 50 "while draws come" "$MIDDLE $QUIET"
kind 84 1 "a code and how many draws" right
kind 124 2 "how many draws: a signal" right
text 474 170 "after k signals: the desk closes the round" "$MIDDLE $QUIET"
kind 208 3 "what is pending?" left
kind 244 4 "so many draws" right
kind 290 5 "draws up to this class?" left
kind 326 6 "so many" right
text 474 347 "ten times, unless the new threshold is 1" "$MIDDLE $QUIET"
kind 390 7 "the new threshold" left

box 622 60 140 338 "$DESK_FILL" 'rx="6" stroke-width="1.5"'
text 692 170 "desk" "$MIDDLE $BOLD font-size=\"15\""
text 692 200 "a number" "$MIDDLE"
text 692 218 "for each code," "$MIDDLE"
text 692 244 "total, base," "$MIDDLE"
text 692 262 "threshold, class" "$MIDDLE"

line 762 150 792 150 "$ARROW stroke-width=\"1.5\""
text 798 126 "the list" "$BOLD"
text 798 148 "share p, leeway e:"
text 798 166 "each code with p of all"
text 798 184 "draws, none below p - e"
line 762 300 792 300 "$ARROW stroke-width=\"1.5\""
text 798 276 "the class" "$BOLD"
text 798 298 "rank q, leeway e:"
text 798 316 "a q-quantile of all"
text 798 334 "draws' classes, within e"

close_svg
