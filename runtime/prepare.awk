# Makes texts of the language ready for a FORTRAN compiler: see runtime/prepare, which runs it. It writes the file `folder`/NAME for each
# text, and the paths of these files to the standard output.
BEGIN {
  # the words of local arrays that a unit may have on the stack, altogether and in one array
  on_stack = 4096
  in_one = 1024
  # the statements of a loop that may go in strips, and the turns below which strips cost more than they save
  in_strips = 100
  few_turns = 8
  # whether a push looks for room, and a pop for a word
  looks = 1
  for (text = 1; text < ARGC; text++) {
    read_text(ARGV[text])
    find_sources()
    path = path_for(ARGV[text])
    split("", left_out); split("", renamed)
    for (unit = 1; unit <= units; unit++) look_for_repeat()
    for (unit = 1; unit <= units; unit++) if (!(unit in left_out)) write_unit()
    close(path)
    print path
  }
  exit 0
}

function path_for(file,    base, count) {
  base = file
  sub(/.*\//, "", base)
  count = named[base]++
  if (count) sub(/(\.[^.]*)?$/, "_" (count + 1) "&", base)
  path = folder "/" base
  printf "" > path
  return path
}

# The unit of an earlier text whose adjoint or tangent a name is, or nothing: the adjoint of P is P_B, or P_B_k where that was taken, and the tangent P_D or P_D_k.
function source_of(made,    source) {
  if (!match(made, /_[BD](_[0-9]+)?$/)) return ""
  source = substr(made, 1, RSTART - 1)
  return (source in home) ? source : ""
}

# Which earlier texts this one is an adjoint or a tangent of.
function find_sources(    u) {
  split("", made_from)
  for (u = 1; u <= units; u++) if (source_of(name[u]) != "") made_from[home[source_of(name[u])]] = 1
}

# An adjoint, or a tangent, repeats the units that it calls as they are, in another form. They are left out where a model before it has them, and so is
# a unit that an earlier text has in the same form. Two adjoints, or two tangents, of one unit needn't be the same.
# A unit of a model that uses COMMON blocks is repeated with their members as dummies. It can't stand for the model's, so it gets a name of its own.
function look_for_repeat(    this, whole, i) {
  this = name[unit]
  for (i = first[unit]; i <= last[unit]; i++) whole = whole bare[i] "\n"
  if (!(this in home)) {
    home[this] = text
    heading[this] = bare[first[unit]]
    form[this] = whole
  } else if (home[this] == text) {
    fail("the unit " this " is twice in " ARGV[text])
  } else if (form[this] == whole) {
    left_out[unit] = 1
  } else if (!(home[this] in made_from) || source_of(this) != "") {
    fail("the unit " this " is in " ARGV[home[this]] " and in " ARGV[text] ", with other statements")
  } else if (heading[this] == bare[first[unit]]) {
    left_out[unit] = 1
  } else {
    rename_unit(this, whole)
  }
}

# The name of a unit in this text, whose dummies aren't those of the model's unit. Where an earlier text has the same unit, it has that one's name.
function rename_unit(this, whole,    fresh) {
  if (whole in with_members) {
    left_out[unit] = 1
  } else {
    fresh = this "_M"
    while (is_taken(fresh)) fresh = fresh "M"
    home[fresh] = text
    with_members[whole] = fresh
  }
  renamed[this] = with_members[whole]
}

# Whether a unit has a name, or a statement of the text may have it.
function is_taken(fresh,    i) {
  if (fresh in home) return 1
  for (i = 1; i <= statements; i++) if (index(bare[i], fresh)) return 1
  return 0
}

# While a unit runs, a local of it holds the tape's height: a compiler can keep it in a register. It is written to the module
# before a call and at the end, and read again after a call.
function write_unit(    i, opened) {
  look_at_unit()
  for (i = first[unit]; i <= last[unit]; i++) {
    if (!opened && i > last_declaration) {
      # a local is 0 at each entry
      printf "%s", allocations > path
      if (has_words) put(own "H=" own "G")
      opened = 1
    }
    if (has_words && goes_in_strips(i)) {
      write_strips(i)
      i = loop_end
    } else {
      write_statement(i)
    }
    if (i == first[unit] && uses != "") put("USE ADJOINT_TAPE,ONLY:" substr(uses, 2))
    if (i == last_declaration && has_words) put("INTEGER*8 " own "H" (has_strips ? "," own "F," own "L," own "S," own "N," own "M," own "K" : ""))
    # so that no unit is taken for a subroutine of the compiler, such as EXIT
    if (i == last_declaration && externals != "") put("EXTERNAL " substr(externals, 2))
  }
}

function put(text) {
  print "      " text > path
}

# Whether a statement begins a loop whose turns push or pop words and do no other calls, that has no loop within, and whose turns aren't few by its text. Then `loop_end` is the last statement of the
# loop, `loop_variable` its variable, `bounds` has what the DO says of it, and `pushes` and `pops` are how many words a turn pushes and pops at most.
function goes_in_strips(i,    text, k) {
  if (!match(bare[i], /^DO[A-Z][A-Z0-9_]*=/) || has_label(i)) return 0
  loop_variable = substr(bare[i], 3, RLENGTH - 3)
  if (split_at_commas(substr(bare[i], RLENGTH + 1), bounds) < 2 || has_few_turns()) return 0
  pushes = pops = 0
  for (k = i + 1; k <= i + in_strips; k++) {
    text = bare[k]
    loop_end = k
    if (text == "ENDDO") return pushes + pops > 0
    if (text ~ /^DO/ || text == "END" || has_label(k)) return 0
    if (text ~ /^CALLPUSH(INTEGER8|CONTROL1B)\(/) pushes++
    else if (text ~ /^CALLPOP(INTEGER8|CONTROL1B)\(/) pops++
    else if (text ~ /CALL/ && text !~ /^CALLADZERO8\(/) return 0
  }
  return 0
}

# Whether the bounds of the loop that is looked at are literals with few turns between them.
function has_few_turns(    literal, step) {
  literal = "^-?[0-9]+$"
  step = 3 in bounds ? bounds[3] : 1
  if (bounds[1] !~ literal || bounds[2] !~ literal || step !~ literal || step + 0 == 0) return 0
  return (bounds[2] - bounds[1]) / step + 1 < few_turns
}

function has_label(i) {
  return substr(statement[i], 1, 5) !~ /^ *$/
}

# The parts of a text between the commas that stand in no parentheses: their number is given back.
function split_at_commas(text, parts,    at, from, open, letter, count) {
  split("", parts)
  from = 1
  for (at = 1; at <= length(text) + 1; at++) {
    letter = substr(text ",", at, 1)
    open += (letter == "(") - (letter == ")")
    if (letter == "," && !open) {
      parts[++count] = substr(text, from, at - from)
      from = at + 1
    }
  }
  return count
}

# The loop that was just looked at, in strips. A strip is as many turns as the chunk with the tape's top has words and room for, however many of them they push and
# pop. They look at neither, and call nothing: so a compiler can keep their variables in registers, and copy words in blocks. One turn that looks stands between
# two strips.
function write_strips(i,    step) {
  step = 3 in bounds ? bounds[3] : 1
  put(own "F=" bounds[1])
  put(own "L=" bounds[2])
  put(own "S=" step)
  put_turns(own "F", own "L", own "S")
  put(loop_variable "=" own "F")
  put("DO WHILE(" own "N.GT.0)")
  put(own "M=" own "N")
  if (pushes) put_most("(" own "R-" own "H)/" pushes)
  if (pops) put_most(own "H/" pops)
  put("DO " own "K=1," own "M")
  looks = 0
  write_turn(i)
  looks = 1
  put("END DO")
  put(own "N=" own "N-" own "M")
  put("IF(" own "N.GT.0)THEN")
  write_turn(i)
  put(own "N=" own "N-1")
  put("END IF")
  put("END DO")
}

# How many turns a loop has; what isn't usual is left to the runtime: a loop of none, and one whose bounds are further apart than a word can say.
function put_turns(first, last, step,    apart) {
  apart = last "-" first
  put("IF(" step ".GT.0.AND." first ".LE." last ".AND." apart ".GE.0.OR." step ".LT.0.AND." first ".GE." last ".AND." apart ".LE.0)THEN")
  put(own "N=(" apart ")/" step "+1")
  put("ELSE")
  put(own "N=" own "T(" first "," last "," step ")")
  put("END IF")
}

function put_most(turns) {
  put("IF(" own "M.GT." turns ")" own "M=" turns)
}

# A turn of the loop that was just looked at, with the step to the next one.
function write_turn(i,    k) {
  for (k = i + 1; k < loop_end; k++) write_statement(k)
  put(loop_variable "=" loop_variable "+" own "S")
}

# Sets what the unit's statements are written by: its declarations, the arrays that are too long for the stack, the parts of the runtime
# that it uses, and a beginning of names that the unit hasn't.
function look_at_unit(    i, parts, count, k, seen, calls, name, called) {
  split("", dummy); split("", long)
  allocations = uses = externals = ""
  kept = 0
  count = split(bare[first[unit]], parts, /[(),]/)
  for (k = 2; k <= count; k++) dummy[parts[k]] = 1
  last_declaration = first[unit]
  own = "ADRT"
  split("", seen); split("", called)
  # members of blocks aren't locals
  for (i = first[unit] + 1; i <= last[unit]; i++) if (is_common(bare[i])) look_at_members(bare[i])
  for (i = first[unit] + 1; i <= last[unit]; i++) {
    if (bare[i] == "IMPLICITNONE" || is_declaration(bare[i]) || is_common(bare[i])) {
      last_declaration = i
      if (is_declaration(bare[i])) look_at_declaration(bare[i])
    }
    while (index(bare[i], own)) own = own "X"
    name = called_unit(bare[i])
    if (name != "" && !(name in called)) {
      called[name] = 1
      externals = externals "," (name in renamed ? renamed[name] : name)
    }
    if (match(bare[i], /CALL(PUSH|POP)(INTEGER8ARRAY|INTEGER8|CONTROL1B)\(/)) seen[substr(bare[i], RSTART + 4, RLENGTH - 5)] = 1
  }
  while (index(bare[first[unit]], own)) own = own "X"
  for (calls in seen) if (calls ~ /ARRAY$/) uses = uses "," calls
  has_words = ("PUSHINTEGER8" in seen) || ("PUSHCONTROL1B" in seen) || ("POPINTEGER8" in seen) || ("POPCONTROL1B" in seen)
  if (has_words) uses = uses "," own "W=>HERE," own "G=>HEIGHT," own "R=>ROOM," own "U=>TAPE_UP," own "D=>TAPE_DOWN"
  has_strips = 0
  for (i = last_declaration + 1; has_words && !has_strips && i <= last[unit]; i++) has_strips = goes_in_strips(i)
  if (has_strips) uses = uses "," own "T=>TURNS"
}

function look_at_members(text,    items, count, k) {
  count = items_of(text, items)
  for (k = 1; k <= count; k++) {
    sub(/\(.*/, "", items[k])
    dummy[items[k]] = 1
  }
}

# The local arrays of a declaration. The extents of a local are numbers.
function look_at_declaration(text,    items, count, k, extents, words) {
  count = items_of(text, items)
  for (k = 1; k <= count; k++) {
    if (items[k] !~ /\(/) continue
    split(items[k], extents, /[(),]/)
    if (extents[1] in dummy) continue
    words = extents[2] * (extents[3] == "" ? 1 : extents[3])
    if (words <= in_one && kept + words <= on_stack) {
      kept += words
    } else {
      long[extents[1]] = extents[3] == "" ? "(:)" : "(:,:)"
      allocations = allocations "      ALLOCATE(" items[k] ",SOURCE=0_8)\n"
    }
  }
}

function write_statement(i,    text, label) {
  text = bare[i]
  label = substr(statement[i], 1, 6)
  if (is_declaration(text)) {
    write_declaration(text)
  } else if (match(text, /^CALLPUSH(INTEGER8|CONTROL1B)\(/)) {
    if (looks) {
      print label "IF(" own "H.GE." own "R)THEN" > path
      put("CALL " own "U")
      put(own "H=0")
      put("END IF")
    }
    put(own "H=" own "H+1")
    put(own "W%WORDS(" own "H)=" inner(text, RLENGTH))
  } else if (match(text, /^CALLPOP(INTEGER8|CONTROL1B)\(/)) {
    if (looks) {
      print label "IF(" own "H.LE.0)THEN" > path
      put("CALL " own "D('" substr(text, 5, RLENGTH - 5) "')")
      put(own "H=" own "R")
      put("END IF")
    }
    put(inner(text, RLENGTH) "=" own "W%WORDS(" own "H)")
    put(own "H=" own "H-1")
  } else if (match(text, /^CALLADZERO8\(/)) {
    print label inner(text, RLENGTH) "=0" > path
  } else if (!has_words) {
    print with_names(i) > path
  } else if (text == "END" || text == "RETURN") {
    put(own "G=" own "H")
    print statement[i] > path
  } else if (calls_a_unit(text)) {
    put(own "G=" own "H")
    print with_names(i) > path
    put(own "H=" own "G")
  } else {
    print with_names(i) > path
  }
}

# A statement, with the new name of the unit that it begins or calls.
function with_names(i,    this, text) {
  text = bare[i]
  this = i == first[unit] ? name[unit] : called_unit(text)
  if (!(this in renamed)) return statement[i]
  # the name stands right before the last part of the statement that begins with it
  if (i != first[unit]) return substr(statement[i], 1, 6) substr(text, 1, length(text) - length(call_text)) "CALL " renamed[this] substr(call_text, 5 + length(this))
  return substr(statement[i], 1, 6) "SUBROUTINE " renamed[this] substr(text, 11 + length(this))
}

# The unit that a statement calls, alone or within an IF of one statement, or nothing.
function called_unit(text,    name) {
  # no actual has a `=`, so what has one is an assignment to an array whose name begins so
  if (!calls_a_unit(text) || index(call_text, "=")) return ""
  name = substr(call_text, 5)
  sub(/\(.*/, "", name)
  return name ~ /^(PUSHINTEGER8|POPINTEGER8|PUSHINTEGER8ARRAY|POPINTEGER8ARRAY|PUSHCONTROL1B|POPCONTROL1B|ADZERO8)$/ ? "" : name
}

# Whether a statement is a CALL of a unit or of a runtime call for an array, or an IF of one statement that may be such a CALL. It may say so of
# other statements of one line. `call_text` becomes the CALL without its IF.
function calls_a_unit(text,    at, open, letter) {
  if (text ~ /^CALLAD(BEG|END|ACT|ACTN)(\(|$)/) return 0
  call_text = text
  if (text ~ /^CALL/) return 1
  if (text !~ /^IF\(.*\)CALL/) return 0
  # `at` becomes the place of the parenthesis that closes the condition
  at = 3
  open = 1
  while (open > 0 && at < length(text)) {
    letter = substr(text, ++at, 1)
    open += (letter == "(") - (letter == ")")
  }
  call_text = substr(text, at + 1)
  return call_text ~ /^CALL/
}

# The argument of a call with one, whose first RLENGTH characters end with its parenthesis.
function inner(text, before) {
  return substr(text, before + 1, length(text) - before - 1)
}

# A declaration; arrays that are too long for the stack are allocated.
function write_declaration(text,    items, count, k, short, base) {
  count = items_of(text, items)
  for (k = 1; k <= count; k++) {
    base = items[k]
    sub(/\(.*/, "", base)
    if (base in long) {
      put("INTEGER*8,ALLOCATABLE::" base long[base])
    } else {
      short = short "," items[k]
    }
  }
  if (short != "") put("INTEGER*8 " substr(short, 2))
}
