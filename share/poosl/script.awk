# Whether a line of a script is one as it is written, whatever system it is for: reads the script, takes the
# number of the line, and ends with status 0 if it is.

# a number without leading zeros that is no greater than another one
function at_most(word, most) {
  if (word !~ /^(0|[1-9][0-9]*)$/) return 0
  if (length(word) != length(most)) return length(word) < length(most)
  return (word "") <= (most "")
}
function is_name(word) { return word ~ /^[A-Za-z_][A-Za-z0-9_]*$/ && !((word) in keyword) }
function is_value(word) {
  if (word == "true" || word == "false" || word == "nil") return 1
  if (substr(word, 1, 1) == "-") return at_most(substr(word, 2), "9223372036854775808")
  return at_most(word, "9223372036854775807")
}
function is_entry(line,   n, i, word) {
  n = split(line, word, "[ ]")
  if (n < 5 || !at_most(word[1], "9223372036854775807")) return 0
  if (!is_name(word[3]) || !is_name(word[4]) || !is_name(word[5])) return 0
  if (word[2] == "receive") return n == 6 && at_most(word[6], "100")
  if (word[2] != "send" || n > 105) return 0
  for (i = 6; i <= n; i++) if (!is_value(word[i])) return 0
  return 1
}

BEGIN {
  n = split("data process cluster class system extends ports messages variables init methods instances channels " \
    "skip delay par and rap sel or les if then else fi while do od abort interrupt with new self nil true false " \
    "return currentTime super native import importlib", words, " ")
  for (i = 1; i <= n; i++) keyword[words[i]] = 1
}
NR == number { found = is_entry($0); exit }
END { exit !found }
