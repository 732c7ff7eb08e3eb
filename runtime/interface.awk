# Writes the interface of a unit: see runtime/interface, which runs it.
BEGIN {
  read_text("/dev/stdin")
  for (unit = 1; unit <= units; unit++) if (name[unit] == toupper(wanted)) break
  if (unit > units) fail("the text has no unit " wanted)
  write_interface(tolower(name[unit]))
  exit 0
}

function write_interface(lower,    dummies, count, k, i) {
  count = split(bare[first[unit]], dummies, /[(),]/)
  # the part after the last parenthesis is empty
  while (count > 1 && dummies[count] == "") count--
  print "! The interface of " name[unit] ", written by runtime/interface."
  print "module " lower "_interface"
  print "  implicit none"
  print "  interface"
  printf "    subroutine %s(", lower
  for (k = 2; k <= count; k++) printf("%s&\n      %s", (k > 2 ? ", " : ""), tolower(dummies[k]))
  print ")"
  for (i = first[unit] + 1; i <= last[unit] && is_heading(bare[i]); i++) if (is_declaration(bare[i])) look_at_items(bare[i])
  # scalars first, since extents may be named before they are declared
  for (k = 2; k <= count; k++) if (!(dummies[k] in extents)) print "      integer(8) :: " tolower(dummies[k])
  for (k = 2; k <= count; k++) if (dummies[k] in extents) print "      integer(8) :: " tolower(dummies[k] extents[dummies[k]])
  print "    end subroutine " lower
  print "  end interface"
  print "end module " lower "_interface"
}

function is_heading(text) {
  return text == "IMPLICITNONE" || is_declaration(text) || is_common(text)
}

function look_at_items(text,    items, count, k, base) {
  count = items_of(text, items)
  for (k = 1; k <= count; k++) {
    base = items[k]
    if (sub(/\(.*/, "", base)) extents[base] = substr(items[k], length(base) + 1)
  }
}
