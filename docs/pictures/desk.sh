#!/usr/bin/env bash
# The desk's four phases and what leads from one to another, docs/pictures/desk.svg.
cd "$(dirname "$0")/../.."
. docs/pictures/svg.sh

# state X Y NAME DETAIL: a phase, and the number that stands for it in the record.
state() {
  box "$1" "$2" 250 64 "$DESK_FILL" 'rx="14" stroke-width="1.5"'
  text $(($1 + 125)) $(($2 + 27)) "$3" "$MIDDLE $BOLD font-size=\"15\""
  text $(($1 + 125)) $(($2 + 48)) "$4" "$MIDDLE"
}

# edge D: an arrow along a path.
# says X Y COMES CONDITION DONE [ATTRIBUTES]: what comes, on which condition, what the desk does.
edge() { path "$1" "$ARROW stroke-width=\"1.5\""; }
says() {
  text "$1" "$2" "$3" "$BOLD ${6:-}"
  text "$1" $(($2 + 18)) "$4" "${6:-}"
  text "$1" $(($2 + 36)) "$5" "$QUIET ${6:-}"
}

open_svg 1000 712 "The desk's phases" \
  "Four phases: idle, collecting from deck j, probing an interval at deck j, announcing to deck j. \
The k-th signal leads from idle to collecting; the last deck's answer to probing, or straight to \
announcing where the new threshold is 1; the end of the halving to announcing; the last kind 7 \
back to idle."

state 50 200 "idle" "phase 0"
state 640 200 "collecting" "phase 1: from deck j"
state 640 500 "probing" "phase 2: low to high at deck j"
state 50 500 "announcing" "phase 3: to deck j"

# idle, to itself, twice
edge "M90,200 C70,135 140,135 124,196"
edge "M226,200 C210,135 280,135 262,196"
says 24 58 "kind 1" "from any deck" "adds to the code's number"
says 226 58 "kind 2" "fewer than k signals" "adds to total and signals;"
text 226 112 "at threshold 1 counts the class" "$QUIET"

# idle to collecting
edge "M300,232 L636,232"
says 468 186 "kind 2" "the k-th signal" "" "$MIDDLE"
text 468 222 "sends kind 3 to deck 0" "$MIDDLE $QUIET"

# collecting, to itself
edge "M745,200 C725,135 805,135 785,196"
says 640 94 "kind 4 from deck j" "j is not the last deck" \
  "total gains its amount, sends kind 3 to deck j + 1"

# collecting to probing
edge "M765,264 L765,496"
says 780 328 "kind 4 from the last deck" "new threshold 2 or more" "sets base and threshold,"
text 780 382 "interval 0 to 1023, sum 0," "$QUIET"
text 780 400 "sends kind 5 to deck 0" "$QUIET"

# collecting to announcing
edge "M644,260 L304,504"
says 300 328 "kind 4 from the last deck" "new threshold 1: no probing" "sets base and threshold"

# probing, to itself, twice
edge "M690,564 C672,629 742,629 726,568"
edge "M826,564 C810,629 880,629 862,568"
says 560 646 "kind 6 from deck j" "j is not the last deck" "adds to the sum,"
text 560 700 "sends kind 5 to deck j + 1" "$QUIET"
says 790 646 "kind 6 from the last deck" "halved, low < high" "sum 0,"
text 790 700 "sends kind 5 to deck 0" "$QUIET"

# probing to announcing
edge "M640,532 L304,532"
says 470 486 "kind 6 from the last deck" "halved, low = high" "" "$MIDDLE"
text 470 522 "the class becomes low" "$MIDDLE $QUIET"

# announcing, to itself
edge "M90,564 C70,629 140,629 124,568"
says 24 646 "the next kind 7 asked for" "j is not the last deck" "hands out kind 7 to deck j"

# announcing to idle
edge "M175,500 L175,268"
says 24 358 "the last kind 7" "asked for" "hands it out,"
text 24 412 "signals become 0" "$QUIET"

# what the three weights of text are, and the rest
box 276 584 248 112 none 'rx="4" stroke-opacity="0.35"'
says 290 606 "what comes" "on which condition" "what the desk does"
text 290 668 "any other kind, or another deck:"
text 290 686 "refused (9), nothing changes" "$QUIET"

close_svg
