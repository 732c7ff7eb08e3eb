# Reads a text of the language, as read or as written, for the scripts beside it: they set `script` to their names.

function fail(why) {
  print script ": " why > "/dev/stderr"
  exit 1
}

# The statements of a text without comments, directives and data, each on one line: `statement` has them as they are written, `bare` in
# capitals without blanks and label. Unit number u has the statements from first[u] to last[u] and the name name[u].
function read_text(file,    line, joined, status) {
  split("", statement); split("", bare)
  statements = units = 0
  joined = ""
  while ((status = getline line < file) > 0) {
    sub(/\r$/, "", line)
    if (toupper(substr(line, 1, 5)) == "$DATA") break
    if (line ~ /^[Cc*]/ || substr(line, 1, 72) ~ /^ *$/) continue
    if (substr(line, 1, 5) ~ /^ *$/ && length(line) > 5 && substr(line, 6, 1) !~ /[ 0]/) {
      joined = joined substr(line, 7, 66)
      continue
    }
    add_statement(joined)
    joined = substr(line, 1, 72)
  }
  # mawk ends by a signal where the standard input is closed
  if (file != "/dev/stdin") close(file)
  if (status < 0) fail("there is no text " file)
  add_statement(joined)
}

function add_statement(joined,    name_end) {
  if (joined == "") return
  statement[++statements] = joined
  joined = toupper(substr(joined, 7))
  gsub(/ /, "", joined)
  bare[statements] = joined
  if (joined ~ /^SUBROUTINE[A-Z][A-Z0-9_]*(\(|$)/) {
    first[++units] = statements
    name_end = index(joined "(", "(")
    name[units] = substr(joined, 11, name_end - 11)
  }
  last[units] = statements
}

# The items of a declaration or of a COMMON statement, each a name with its extents or without: `items` has them, and their number is given back.
function items_of(text, items,    count) {
  count = 0
  sub(/^(INTEGER(\*8)?|COMMON\/[A-Z0-9_]*\/)/, "", text)
  while (match(text, /^[A-Z][A-Z0-9_]*(\([A-Z0-9_,]*\))?,?/)) {
    items[++count] = substr(text, 1, RLENGTH)
    sub(/,$/, "", items[count])
    text = substr(text, RLENGTH + 1)
  }
  return count
}

# Whether a statement names members of a block; nothing else begins so in a text of the language.
function is_common(text) {
  return text ~ /^COMMON\/[A-Z][A-Z0-9_]*\//
}

function is_declaration(text) {
  return text ~ /^INTEGER(\*8)?[A-Z]/ && text !~ /=/
}
