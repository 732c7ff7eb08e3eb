! The runtime calls of emitted text, for stock compilers: a tape of words, and reversals by binomial schedules.
! Standard Fortran 2008 with no dependency. The calls and their meaning stand in docs/RUNNING.md, the schedule in docs/SCHEDULES.md.

! The tape: chunks of one size, each taken when it is needed first and kept from then on. Nothing is copied when the tape grows.
! `runtime/prepare` writes the push and the pop of a word into a text, by `here`, `height`, `room`, `tape_up` and `tape_down`, and loops of them by `turns`.
module adjoint_tape
  use, intrinsic :: iso_fortran_env, only: int64, error_unit
  implicit none
  private
  public :: word, push, pop, left, pushinteger8array, popinteger8array, stop_with
  public :: here, height, room, tape_up, tape_down, turns

  integer, parameter :: word = int64
  ! The words of a chunk: 8 MiB, of which a system gives memory to those that are written.
  integer(word), parameter :: room = 1048576
  type :: chunk
    integer(word) :: words(room)
    ! set where there is a chunk below, and above
    type(chunk), pointer :: below, above
  end type chunk
  ! The lowest chunk needs no allocation, so short tapes can't fail.
  type(chunk), target, save :: first
  ! The chunk with the tape's top: its words(1:height) are on the tape, and all words of those below it.
  type(chunk), pointer, save :: here => first
  integer(word), save :: height = 0
  ! which chunk `here` is, from 1, and how many were taken
  integer(word), save :: at = 1, taken = 1

  ! All elements of an array, in storage order. They are popped in the opposite order.
  interface pushinteger8array
    module procedure push_vector, push_matrix
  end interface pushinteger8array
  interface popinteger8array
    module procedure pop_vector, pop_matrix
  end interface popinteger8array

contains

  ! One word on top of the tape.
  subroutine push(w)
    integer(word), intent(in) :: w
    if (height >= room) call tape_up()
    height = height + 1
    here%words(height) = w
  end subroutine push

  ! The word on top, taken away; `call_name` is the runtime call that asks for it.
  integer(word) function pop(call_name)
    character(*), intent(in) :: call_name
    if (height <= 0) call tape_down(call_name)
    pop = here%words(height)
    height = height - 1
  end function pop

  ! The chunk above becomes the one with the top, empty: `height` is 0 then, whatever it was before.
  subroutine tape_up()
    type(chunk), pointer :: more
    character(20) :: words
    integer :: status
    if (at == taken) then
      allocate (more, stat=status)
      if (status /= 0) then
        write (words, '(i0)') at * room
        call stop_with('out of memory: there is none for more than the ' // trim(words) // ' words of the tape')
      end if
      more%below => here
      here%above => more
      taken = taken + 1
    end if
    here => here%above
    at = at + 1
    height = 0
  end subroutine tape_up

  ! The chunk below becomes the one with the top, full: `height` is `room` then, whatever it was before. `call_name` is the runtime
  ! call that asks for a word.
  subroutine tape_down(call_name)
    character(*), intent(in) :: call_name
    if (at == 1) call stop_with(call_name // ' pops from an empty tape')
    here => here%below
    at = at - 1
    height = room
  end subroutine tape_down

  ! How many turns a DO has with such bounds and such a step, which isn't 0. The bounds may be further apart than a word can say.
  pure integer(word) function turns(first, last, step)
    integer(word), intent(in) :: first, last, step
    integer(word) :: edge, before, next
    turns = 0
    if (leads_past(first, last, step)) return
    if ((first < 0) .eqv. (last < 0)) then
      turns = (last - first) / step + 1
    else
      ! the turns on the side of 0 where the first one is, and then those on the other
      edge = merge(-1_word, 0_word, first < 0)
      before = (edge - first) / step
      next = first + before * step + step
      turns = before + 1
      if (.not. leads_past(next, last, step)) turns = turns + (last - next) / step + 1
    end if
  end function turns

  ! Whether a loop ends before a place.
  pure logical function leads_past(place, last, step)
    integer(word), intent(in) :: place, last, step
    leads_past = (step > 0 .and. place > last) .or. (step < 0 .and. place < last)
  end function leads_past

  subroutine push_vector(a)
    integer(word), contiguous, intent(in) :: a(:)
    call push_words(a, size(a, kind=word))
  end subroutine push_vector

  subroutine push_matrix(a)
    integer(word), contiguous, intent(in) :: a(:, :)
    call push_words(a, size(a, kind=word))
  end subroutine push_matrix

  subroutine pop_vector(a)
    integer(word), contiguous, intent(inout) :: a(:)
    call pop_words(a, size(a, kind=word))
  end subroutine pop_vector

  subroutine pop_matrix(a)
    integer(word), contiguous, intent(inout) :: a(:, :)
    call pop_words(a, size(a, kind=word))
  end subroutine pop_matrix

  ! n words in blocks, each as long as there is room in a chunk.
  subroutine push_words(a, n)
    integer(word), intent(in) :: n
    integer(word), intent(in) :: a(n)
    integer(word) :: done, block
    done = 0
    do while (done < n)
      if (height >= room) call tape_up()
      block = min(n - done, room - height)
      here%words(height + 1:height + block) = a(done + 1:done + block)
      height = height + block
      done = done + block
    end do
  end subroutine push_words

  subroutine pop_words(a, n)
    integer(word), intent(in) :: n
    integer(word), intent(inout) :: a(n)
    integer(word) :: waiting, block
    waiting = n
    do while (waiting > 0)
      if (height <= 0) call tape_down('POPINTEGER8ARRAY')
      block = min(waiting, height)
      a(waiting - block + 1:waiting) = here%words(height - block + 1:height)
      height = height - block
      waiting = waiting - block
    end do
  end subroutine pop_words

  ! How many words the tape holds.
  integer(word) function left()
    left = (at - 1) * room + height
  end function left

  ! Says on the standard error why the program can't go on, and ends it with the status 1.
  subroutine stop_with(why)
    character(*), intent(in) :: why
    write (error_unit, '(2a)') 'adjoint runtime: ', why
    error stop 1
  end subroutine stop_with
end module adjoint_tape

! Binomial schedules: which step is advanced to, stored, turned or restored next (Griewank and Walther 2000), and the schedules of the reversals that are open.
module adjoint_schedule
  use adjoint_tape, only: word, stop_with
  implicit none
  private
  public :: open_reversal, close_reversal, count_actions, give_action
  integer(word), parameter :: store_it = 1, advance_it = 2, turn_it = 3, keep_it = 4, drop_it = 5
  integer(word), parameter :: most_steps = 1099511627776_word, most_snapshots = 64

  ! A stored place, the steps from there to `high` that are to be turned, how many of them are run before the next snapshot, and the
  ! repetitions of their number.
  type :: frame
    integer(word) :: low, high, split, repetitions
  end type frame

  ! Steps from a stored place on: as many as the snapshots turn in so many repetitions, and extra ones, too few for a repetition more. `stores` is how
  ! many snapshots the extra steps take with one less.
  type :: row
    integer(word) :: snapshots, repetitions, extra, stores
  end type row

  ! What is left to be given: frames from the outermost, and the part from `low` to `high` to go on with.
  type :: schedule
    integer(word) :: steps = -1, snapshots = 0, given = 0
    integer(word) :: low, high
    integer :: depth, stage
    type(frame) :: frames(most_snapshots)
  end type schedule
  ! what comes next: a part from `low` to `high`, an advance from the innermost frame, its restoring, or the turn of the step `low`
  integer, parameter :: begin_part = 0, advance_next = 1, restore_next = 2, turn_next = 3, all_given = 4

  ! The schedules of the open reversals, the innermost last, and one for actions that no open reversal asks for.
  type(schedule), allocatable, target, save :: reversals(:)
  integer, save :: open = 0
  type(schedule), target, save :: outside
  ! that of the innermost open reversal, or the one for such actions
  type(schedule), pointer, save :: current => outside

  ! betas(s, r) = C(s+r, s) for short reversals, by Pascal's rule: it is 0 until it is asked for first
  integer(word), parameter :: short = 63
  integer(word), save :: betas(0:most_snapshots, 0:short) = 0

contains

  subroutine check_range(steps, snapshots)
    integer(word), intent(in) :: steps, snapshots
    character(80) :: why
    if (steps < 0 .or. steps > most_steps .or. snapshots < 1 .or. snapshots > most_snapshots) then
      write (why, '(a,i0,a,i0,a)') 'no schedule of ', steps, ' steps with ', snapshots, ' snapshots'
      call stop_with(trim(why))
    end if
  end subroutine check_range

  ! A reversal begins within those that are open.
  subroutine open_reversal(steps, snapshots)
    integer(word), intent(in) :: steps, snapshots
    type(schedule), allocatable :: wider(:)
    integer :: status
    call check_range(steps, snapshots)
    if (.not. allocated(reversals)) allocate (reversals(0))
    if (open == size(reversals)) then
      allocate (wider(2 * open + 8), stat=status)
      if (status /= 0) call stop_with('out of memory: there is none for another reversal')
      wider(:open) = reversals
      call move_alloc(wider, reversals)
    end if
    open = open + 1
    current => reversals(open)
    call begin_schedule(current, steps, snapshots)
  end subroutine open_reversal

  subroutine close_reversal()
    if (open == 0) call stop_with('ADEND ends a reversal where none is open')
    open = open - 1
    current => outside
    if (open > 0) current => reversals(open)
  end subroutine close_reversal

  ! The k-th action, from 1, with its two places. Reversals ask for their actions one after the other.
  subroutine give_action(steps, snapshots, k, action, from, to)
    integer(word), intent(in) :: steps, snapshots, k
    integer(word), intent(out) :: action, from, to
    if (k == current%given + 1 .and. current%stage /= all_given .and. is_of(current, steps, snapshots)) then
      call next_action(current, action, from, to)
    else
      call give_other(steps, snapshots, k, action, from, to)
    end if
  end subroutine give_action

  ! An action that isn't the next one of the innermost reversal: it is looked for by its number where it isn't the next one of its schedule.
  subroutine give_other(steps, snapshots, k, action, from, to)
    integer(word), intent(in) :: steps, snapshots, k
    integer(word), intent(out) :: action, from, to
    type(schedule), pointer :: asked
    character(60) :: why
    if (k < 1 .or. k > count_actions(steps, snapshots)) then
      write (why, '(a,i0)') 'ADACT: the schedule has no action ', k
      call stop_with(trim(why))
    end if
    asked => current
    if (.not. is_of(asked, steps, snapshots)) asked => outside
    if (.not. is_of(asked, steps, snapshots)) call begin_schedule(asked, steps, snapshots)
    if (k /= asked%given + 1) call seek(asked, k)
    call next_action(asked, action, from, to)
  end subroutine give_other

  pure logical function is_of(s, steps, snapshots)
    type(schedule), intent(in) :: s
    integer(word), intent(in) :: steps, snapshots
    is_of = s%steps == steps .and. s%snapshots == snapshots
  end function is_of

  subroutine begin_schedule(s, steps, snapshots)
    type(schedule), intent(inout) :: s
    integer(word), intent(in) :: steps, snapshots
    s%steps = steps
    s%snapshots = snapshots
    s%given = 0
    s%low = 0
    s%high = steps
    s%depth = 0
    s%stage = merge(all_given, begin_part, steps == 0)
    if (betas(0, 0) == 0) call fill_betas()
  end subroutine begin_schedule

  ! The number of actions of a schedule, without making them: each step has a Turn; each Advance cuts a part in two, so there are steps-1 of them, and
  ! each is followed by a Keep or a Drop; and there are the Stores (docs/SCHEDULES.md, "How many actions").
  integer(word) function count_actions(steps, snapshots)
    integer(word), intent(in) :: steps, snapshots
    call check_range(steps, snapshots)
    if (betas(0, 0) == 0) call fill_betas()
    count_actions = max(3 * steps - 2, 0_word) + stores_of(steps, snapshots)
  end function count_actions

  ! How many snapshots are taken where the steps are turned: C(s+r-1, s-1) for the first C(s+r, s) of them, and then those of the rest with a
  ! snapshot less.
  pure integer(word) function stores_of(steps, snapshots)
    integer(word), intent(in) :: steps, snapshots
    integer(word) :: left, s, r
    stores_of = 0
    left = steps
    s = snapshots
    do while (left >= 2)
      r = repetitions_within(left, s)
      stores_of = stores_of + beta(s - 1, r)
      left = left - beta(s, r)
      s = s - 1
    end do
  end function stores_of

  subroutine fill_betas()
    integer(word) :: s, r
    betas(0, :) = 1
    betas(:, 0) = 1
    do r = 1, short
      do s = 1, most_snapshots
        betas(s, r) = min(betas(s - 1, r) + betas(s, r - 1), 2 * most_steps)
      end do
    end do
  end subroutine fill_betas

  ! C(s+r, s), the steps that s snapshots can reverse with at most r advances over each, or any number above `most_steps` where it is above.
  pure integer(word) function beta(s, r)
    integer(word), intent(in) :: s, r
    integer(word) :: i
    if (r <= short) then
      beta = betas(s, r)
      return
    end if
    beta = 1
    ! exact at each i, since beta*(r+i) is C(r+i, i)*i. Nothing overflows: r is at most 2**41, and at most 2**21 where s is above 1
    do i = 1, s
      beta = beta * (r + i) / i
      if (beta > most_steps) exit
    end do
  end function beta

  ! The least r with steps <= beta(snapshots, r), by doubling and halving, for two steps or more.
  pure integer(word) function repetitions_of(steps, snapshots)
    integer(word), intent(in) :: steps, snapshots
    integer(word) :: low, middle
    repetitions_of = 1
    do while (beta(snapshots, repetitions_of) < steps)
      repetitions_of = 2 * repetitions_of
    end do
    low = repetitions_of / 2
    do while (low + 1 < repetitions_of)
      middle = low + (repetitions_of - low) / 2
      if (beta(snapshots, middle) < steps) then
        low = middle
      else
        repetitions_of = middle
      end if
    end do
  end function repetitions_of

  ! The greatest r with beta(snapshots, r) <= steps, for a step or more.
  pure integer(word) function repetitions_within(steps, snapshots)
    integer(word), intent(in) :: steps, snapshots
    repetitions_within = repetitions_of(steps, snapshots)
    if (beta(snapshots, repetitions_within) > steps) repetitions_within = repetitions_within - 1
  end function repetitions_within

  ! The schedule goes on with the action of a number, which it has, and no other is gone through. What is counted is how many actions are left, that one
  ! too. A part's actions are its first one, and those of rows that end it, one in the other (docs/SCHEDULES.md, "How many actions").
  subroutine seek(s, number)
    type(schedule), intent(inout) :: s
    integer(word), intent(in) :: number
    integer(word) :: actions, left
    call begin_schedule(s, s%steps, s%snapshots)
    s%given = number - 1
    actions = count_actions(s%steps, s%snapshots)
    left = actions - s%given
    do while (left < actions .and. s%stage == begin_part)
      call seek_in_part(s, actions, left)
    end do
  end subroutine seek

  ! Of the part that the schedule goes on with one of the `left` last actions is looked for, which isn't its first. Either the schedule goes on with that, or
  ! with the part above a split, which has so many actions, and so many of them are left.
  subroutine seek_in_part(s, actions, left)
    type(schedule), intent(inout) :: s
    integer(word), intent(inout) :: actions, left
    type(row) :: this, lower
    this = row_of(s%high - s%low, s%snapshots - s%depth)
    call open_frame(s)
    associate (f => s%frames(s%depth))
      do
        this = shortened(this, left)
        actions = actions_of(this)
        f%high = f%low + steps_of(this)
        f%repetitions = this%repetitions + merge(0, 1, this%extra == 0)
        ! the program goes back to the place of the row
        f%split = steps_of(this)
        s%stage = restore_next
        if (left == actions) return
        if (f%split == 1) then
          s%low = f%low
          s%depth = s%depth - 1
          s%stage = turn_next
          return
        end if
        s%stage = advance_next
        if (left == actions - 1) return
        lower = lower_of(this)
        if (left > actions_of(lower)) exit
        this = lower
      end do
      f%split = steps_of(lower)
      s%low = f%low + f%split
      s%high = f%high
      s%stage = begin_part
      actions = actions - 2 - actions_of(lower)
      left = left - actions_of(lower)
    end associate
  end subroutine seek_in_part

  pure type(row) function row_of(steps, snapshots)
    integer(word), intent(in) :: steps, snapshots
    row_of%snapshots = snapshots
    row_of%repetitions = repetitions_within(steps, snapshots)
    row_of%extra = steps - beta(snapshots, row_of%repetitions)
    row_of%stores = stores_of(row_of%extra, snapshots - 1)
  end function row_of

  pure integer(word) function steps_of(r)
    type(row), intent(in) :: r
    steps_of = beta(r%snapshots, r%repetitions) + r%extra
  end function steps_of

  ! The actions of a row, from where the program goes back to its place.
  pure integer(word) function actions_of(r)
    type(row), intent(in) :: r
    actions_of = 3 * steps_of(r) - 2 + beta(r%snapshots - 1, r%repetitions) + r%stores
  end function actions_of

  ! The row of the steps below the split of a row.
  pure type(row) function lower_of(r)
    type(row), intent(in) :: r
    lower_of = r
    if (r%extra < beta(r%snapshots - 1, r%repetitions)) then
      lower_of%repetitions = r%repetitions - 1
    else
      lower_of%extra = 0
      lower_of%stores = 0
    end if
  end function lower_of

  ! The row with the fewest repetitions that ends another one and has so many last actions.
  pure type(row) function shortened(r, left)
    type(row), intent(in) :: r
    integer(word), intent(in) :: left
    integer(word) :: low, middle
    shortened = r
    low = 0
    do while (low < shortened%repetitions)
      middle = low + (shortened%repetitions - low) / 2
      if (ends_with(r, middle, left)) then
        shortened%repetitions = middle
      else
        low = middle + 1
      end if
    end do
  end function shortened

  ! Whether the row with fewer repetitions ends this one and has so many last actions.
  pure logical function ends_with(r, repetitions, left)
    type(row), intent(in) :: r
    integer(word), intent(in) :: repetitions, left
    type(row) :: short_one
    short_one = r
    short_one%repetitions = repetitions
    ends_with = r%extra < beta(r%snapshots - 1, repetitions + 1) .and. left <= actions_of(short_one)
  end function ends_with

  ! The next action with its two places, where one is left to be given.
  subroutine next_action(s, action, from, to)
    type(schedule), intent(inout) :: s
    integer(word), intent(out) :: action, from, to
    s%given = s%given + 1
    select case (s%stage)
    case (begin_part)
      from = s%low
      if (s%high == s%low + 1) then
        action = turn_it
        to = s%high
        call end_part(s)
      else
        action = store_it
        to = s%low
        call open_frame(s)
      end if
    case (advance_next)
      associate (f => s%frames(s%depth))
        call split_frame(f, s%snapshots - s%depth + 1)
        action = advance_it
        from = f%low
        to = f%low + f%split
        s%low = to
        s%high = f%high
        s%stage = begin_part
      end associate
    case (restore_next)
      associate (f => s%frames(s%depth))
        from = f%low
        to = f%low
        if (f%split == 1) then
          action = drop_it
          s%low = f%low
          s%depth = s%depth - 1
          s%stage = turn_next
        else
          action = keep_it
          f%high = f%low + f%split
          s%stage = advance_next
        end if
      end associate
    case default
      action = turn_it
      from = s%low
      to = s%low + 1
      call end_part(s)
    end select
  end subroutine next_action

  ! A part of more than one step begins: its place is stored.
  subroutine open_frame(s)
    type(schedule), intent(inout) :: s
    integer(word) :: bound
    ! the steps above a split need no more repetitions, with a snapshot less, than those that are split
    if (s%depth == 0) then
      bound = repetitions_of(s%high - s%low, s%snapshots)
    else
      bound = s%frames(s%depth)%repetitions
    end if
    s%depth = s%depth + 1
    s%frames(s%depth) = frame(s%low, s%high, 0_word, bound)
    s%stage = advance_next
  end subroutine open_frame

  ! The steps that are run before the next snapshot is taken. The repetitions kept for more steps are a bound of those for fewer, and
  ! at most two above them.
  pure subroutine split_frame(f, snapshots)
    type(frame), intent(inout) :: f
    integer(word), intent(in) :: snapshots
    integer(word) :: steps, below
    steps = f%high - f%low
    do
      below = beta(snapshots, f%repetitions - 1)
      if (below < steps) exit
      f%repetitions = f%repetitions - 1
    end do
    f%split = min(below, steps - beta(snapshots - 1, f%repetitions - 1))
  end subroutine split_frame

  ! A part is done: the innermost frame goes on.
  subroutine end_part(s)
    type(schedule), intent(inout) :: s
    s%stage = merge(restore_next, all_given, s%depth > 0)
  end subroutine end_part
end module adjoint_schedule

subroutine pushinteger8(x)
  use adjoint_tape, only: word, push
  implicit none
  integer(word), intent(in) :: x
  call push(x)
end subroutine pushinteger8

subroutine popinteger8(x)
  use adjoint_tape, only: word, pop
  implicit none
  integer(word), intent(out) :: x
  x = pop('POPINTEGER8')
end subroutine popinteger8

subroutine pushcontrol1b(x)
  use adjoint_tape, only: word, push
  implicit none
  integer(word), intent(in) :: x
  call push(x)
end subroutine pushcontrol1b

subroutine popcontrol1b(x)
  use adjoint_tape, only: word, pop
  implicit none
  integer(word), intent(out) :: x
  x = pop('POPCONTROL1B')
end subroutine popcontrol1b

! A reversal of l steps with s snapshots begins; its schedule is asked for by ADACT.
subroutine adbeg(l, s)
  use adjoint_tape, only: word
  use adjoint_schedule, only: open_reversal
  implicit none
  integer(word), intent(in) :: l, s
  call open_reversal(l, s)
end subroutine adbeg

! The reversal that began last ends.
subroutine adend()
  use adjoint_schedule, only: close_reversal
  implicit none
  call close_reversal()
end subroutine adend

! n becomes the number of actions of the schedule of l steps with s snapshots.
subroutine adactn(l, s, n)
  use adjoint_tape, only: word
  use adjoint_schedule, only: count_actions
  implicit none
  integer(word), intent(in) :: l, s
  integer(word), intent(out) :: n
  n = count_actions(l, s)
end subroutine adactn

! The k-th action, from 1: a becomes 1 for Store, 2 Advance, 3 Turn, 4 Keep, 5 Drop, and f and t its places.
subroutine adact(l, s, k, a, f, t)
  use adjoint_tape, only: word
  use adjoint_schedule, only: give_action
  implicit none
  integer(word), intent(in) :: l, s, k
  integer(word), intent(out) :: a, f, t
  call give_action(l, s, k, a, f, t)
end subroutine adact

! How many words the tape holds: for tests and drivers.
integer(kind=selected_int_kind(18)) function adtape()
  use adjoint_tape, only: left
  implicit none
  adtape = left()
end function adtape
