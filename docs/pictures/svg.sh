# What the scripts of the pictures share: SVG on standard output, made of a few shapes. Lengths are
# whole numbers, so that every machine draws the same bytes.
#
#   open_svg WIDTH HEIGHT TITLE TEXT   the head: white ground, arrow heads, title and description
#   text X Y STRING [ATTRIBUTES]       a line of text; 13 px and left-aligned unless said otherwise
#   box X Y WIDTH HEIGHT FILL [ATTRIBUTES]
#   line X1 Y1 X2 Y2 [ATTRIBUTES]
#   path D [ATTRIBUTES]
#   blank X Y WIDTH HEIGHT             white over what was drawn before
#   close_svg
set -eu

INK="#222222"
MIDDLE='text-anchor="middle"'
RIGHT='text-anchor="end"'
BOLD='font-weight="bold"'
QUIET='fill="#555555"'
ARROW='marker-end="url(#head)"'
DASHED='stroke-dasharray="5 4"'
DECK_FILL="#dcebdc"
DESK_FILL="#dbe6f5"

# STRING as it stands between tags.
escaped() { printf '%s' "$1" | sed 's/&/\&amp;/g; s/</\&lt;/g; s/>/\&gt;/g'; }

open_svg() {
  printf '<svg xmlns="http://www.w3.org/2000/svg" viewBox="0 0 %d %d" width="%d" height="%d"' \
    "$1" "$2" "$1" "$2"
  printf ' role="img" font-family="sans-serif" font-size="13" fill="%s">\n' "$INK"
  printf '<title>%s</title>\n<desc>%s</desc>\n' "$(escaped "$3")" "$(escaped "$4")"
  printf '<defs><marker id="head" viewBox="0 0 10 10" refX="9" refY="5" markerWidth="8"'
  printf ' markerHeight="8" orient="auto-start-reverse"><path d="M0,1 L10,5 L0,9 z" fill="%s"/>' \
    "$INK"
  printf '</marker></defs>\n<rect width="%d" height="%d" fill="white"/>\n' "$1" "$2"
}

text() {
  printf '<text x="%d" y="%d" %s>%s</text>\n' "$1" "$2" "${4:-}" "$(escaped "$3")"
}

box() {
  printf '<rect x="%d" y="%d" width="%d" height="%d" fill="%s" stroke="%s" %s/>\n' \
    "$1" "$2" "$3" "$4" "$5" "$INK" "${6:-}"
}

line() {
  printf '<line x1="%d" y1="%d" x2="%d" y2="%d" stroke="%s" %s/>\n' \
    "$1" "$2" "$3" "$4" "$INK" "${5:-}"
}

path() { printf '<path d="%s" fill="none" stroke="%s" %s/>\n' "$1" "$INK" "${2:-}"; }

blank() {
  printf '<rect x="%d" y="%d" width="%d" height="%d" fill="white"/>\n' "$1" "$2" "$3" "$4"
}

close_svg() { printf '</svg>\n'; }
