#!/usr/bin/env bash
# The picture of the layers, docs/layers.svg, from crates.txt: a crate stands above every crate that
# it names, an arrow of crates.txt is drawn where no longer way leads along others, and the colour
# is the family, the word before the first '_'. `bash docs/layers.sh >docs/layers.svg` draws it
# anew; the gate compares.
set -eu
cd "$(dirname "$0")/.."

awk '
function family(name, word) {
  word = name
  sub(/_.*/, "", word)
  if (word in colour) return word
  return "ground"
}

# The level of a crate: one more than the highest of those that it names.
function level(name, i, n, own, most) {
  if (name in high) return high[name]
  most = 0
  n = split(names[name], own, " ")
  for (i = 1; i <= n; i++)
    if (own[i] in names && level(own[i]) > most) most = level(own[i])
  high[name] = most + 1
  return high[name]
}

# Whether a way leads down from one crate to another.
function leads(from, to, i, n, own, found) {
  if ((from, to) in known) return known[from, to]
  found = 0
  n = split(names[from], own, " ")
  for (i = 1; i <= n && !found; i++)
    if (own[i] == to || (own[i] in names && leads(own[i], to))) found = 1
  known[from, to] = found
  return found
}

BEGIN {
  families = split("ground site coordinator tracker worklist output drawtrack controller " \
    "single library", order, " ")
  split("#e8e8e8 #cfe8cf #cfe0f5 #f5ddc5 #f3f0c0 " \
    "#e6d8ef #f2cfd6 #d6efef #e3dccb #dcefa4", paint, " ")
  for (i = 1; i <= families; i++) colour[order[i]] = paint[i]
  step = 78; tall = 30; gap = 14; wide = 1180; margin = 24
}

!/^#/ && NF {
  name = $1
  sub(/:$/, "", name)
  crates[++count] = name
  rest = $0
  sub(/^[^:]*: */, "", rest)
  names[name] = rest
}

END {
  for (i = 1; i <= count; i++) if (level(crates[i]) > top) top = level(crates[i])
  legend = 40
  height = margin * 2 + legend + top * step
  printf "<svg xmlns=\"http://www.w3.org/2000/svg\" viewBox=\"0 0 %d %d\" ", wide, height
  print "font-family=\"sans-serif\" font-size=\"13\">"
  print "<title>The crates of the draw tracker, each above the ones it stands on</title>"
  printf "<rect width=\"%d\" height=\"%d\" fill=\"white\"/>\n", wide, height
  # places: level by level from the top, by family within a level
  for (l = top; l >= 1; l--) {
    placed = 0
    span = -gap
    for (f = 1; f <= families; f++)
      for (i = 1; i <= count; i++)
        if (high[crates[i]] == l && family(crates[i]) == order[f]) {
          row[++placed] = crates[i]
          breadth[crates[i]] = length(crates[i]) * 7.4 + 18
          span += breadth[crates[i]] + gap
        }
    x = (wide - span) / 2
    for (i = 1; i <= placed; i++) {
      left[row[i]] = x
      y[row[i]] = margin + legend + (top - l) * step
      x += breadth[row[i]] + gap
    }
  }
  for (i = 1; i <= count; i++) {
    name = crates[i]
    n = split(names[name], own, " ")
    for (j = 1; j <= n; j++) {
      if (!(own[j] in names)) continue
      longer = 0
      for (m = 1; m <= n; m++)
        if (m != j && own[m] in names && leads(own[m], own[j])) longer = 1
      if (longer) continue
      printf "<line x1=\"%.0f\" y1=\"%.0f\" x2=\"%.0f\" y2=\"%.0f\" stroke=\"#999\"/>\n",
        left[name] + breadth[name] / 2, y[name] + tall,
        left[own[j]] + breadth[own[j]] / 2, y[own[j]]
    }
  }
  for (i = 1; i <= count; i++) {
    name = crates[i]
    printf "<rect x=\"%.0f\" y=\"%.0f\" width=\"%.0f\" height=\"%d\" rx=\"5\" ",
      left[name], y[name], breadth[name], tall
    printf "fill=\"%s\" stroke=\"#555\"/>\n", colour[family(name)]
    printf "<text x=\"%.0f\" y=\"%.0f\" text-anchor=\"middle\">%s</text>\n",
      left[name] + breadth[name] / 2, y[name] + 20, name
  }
  x = margin
  for (f = 1; f <= families; f++) {
    printf "<rect x=\"%.0f\" y=\"%d\" width=\"14\" height=\"14\" fill=\"%s\" stroke=\"#555\"/>\n",
      x, margin, colour[order[f]]
    printf "<text x=\"%.0f\" y=\"%d\">%s</text>\n", x + 20, margin + 12, order[f]
    x += length(order[f]) * 7.4 + 44
  }
  print "</svg>"
}' crates.txt
