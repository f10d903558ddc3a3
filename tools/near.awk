# Writes the word of standard input (one a line) that is nearest to the environment's WORD, if one is near: two changes of a letter at most, and
# fewer than the word has letters.

{
  changes = distance(ENVIRON["WORD"], $0)
  if (changes <= 2 && changes < length(ENVIRON["WORD"]) && (best == "" || changes < least)) {
    best = $0
    least = changes
  }
}

END { if (best != "") print best }

# How many letters are put in, left out, replaced or (two neighbours) exchanged between two words.
function distance(one, other,    i, j, d, cost) {
  for (i = 0; i <= length(one); i++) d[i, 0] = i
  for (j = 0; j <= length(other); j++) d[0, j] = j
  for (i = 1; i <= length(one); i++)
    for (j = 1; j <= length(other); j++) {
      cost = substr(one, i, 1) != substr(other, j, 1)
      d[i, j] = least_of(d[i - 1, j] + 1, d[i, j - 1] + 1, d[i - 1, j - 1] + cost)
      if (i > 1 && j > 1 && substr(one, i - 1, 1) == substr(other, j, 1) && substr(one, i, 1) == substr(other, j - 1, 1))
        d[i, j] = least_of(d[i, j], d[i - 2, j - 2] + 1, d[i, j])
    }
  return d[length(one), length(other)]
}

function least_of(a, b, c) {
  if (b < a) a = b
  return c < a ? c : a
}
