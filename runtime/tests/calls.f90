! The unit test of the runtime calls, as texts without a compiler's help call them: what is pushed comes back in the other order, arrays whole, and
! the schedules are given in turn and out of turn, also within the turns of another reversal.
! Arguments: a number of steps and of snapshots, of which the schedule is printed as the command `schedule` prints it; or one word, which
! names a call that must stop the program.
program calls
  use, intrinsic :: iso_fortran_env, only: int64, error_unit
  use adjoint_tape, only: pushinteger8array, popinteger8array, turns
  implicit none
  integer(int64), external :: adtape
  ! more words than two chunks have
  integer(int64), parameter :: many = 2500000
  character(20) :: argument, other
  call get_command_argument(1, argument)
  select case (command_argument_count())
  case (0)
    call test_words()
    call test_arrays()
    call test_counts()
    call test_turns()
    call test_numbers()
    call test_long_schedules()
    call test_nests()
    call test_loops()
  case (1)
    call fail_by(argument)
  case default
    call get_command_argument(2, other)
    call print_schedule(number(argument), number(other))
  end select

contains

  subroutine check(holds, what)
    logical, intent(in) :: holds
    character(*), intent(in) :: what
    if (.not. holds) then
      write (error_unit, '(2a)') 'runtime test: wrong: ', what
      error stop 1
    end if
  end subroutine check

  integer(int64) function number(text)
    character(*), intent(in) :: text
    read (text, *) number
  end function number

  subroutine test_words()
    integer(int64) :: i, x
    call check(adtape() == 0, 'no empty tape at the start')
    do i = 1, many
      call pushinteger8(i * i)
    end do
    call check(adtape() == many, 'the height of a tape of several chunks')
    call pushcontrol1b(1_int64)
    call popcontrol1b(x)
    call check(x == 1_int64, 'a control word')
    ! up and down over a border of chunks
    do i = 1, 3
      call pushinteger8(i)
    end do
    do i = 3, 1, -1
      call popinteger8(x)
      call check(x == i, 'a word at the top')
    end do
    do i = many, 1, -1
      call popinteger8(x)
      call check(x == i * i, 'a word')
    end do
    call check(adtape() == 0, 'an empty tape')
  end subroutine test_words

  ! arrays of one and two dimensions, within a chunk, over a border, and over several chunks
  subroutine test_arrays()
    integer(int64), allocatable :: a(:), b(:), c(:, :), d(:, :)
    integer(int64) :: lengths(6), i, k, x
    lengths = [1_int64, 3_int64, 1048575_int64, 1048576_int64, 1048577_int64, many]
    do k = 1, 6
      a = [(i * 3 - 7, i = 1, lengths(k))]
      b = a
      call pushinteger8array(a)
      a = 0
      call check(adtape() == lengths(k), 'the height after an array')
      call popinteger8(x)
      call check(x == b(lengths(k)), 'the last element on top')
      call pushinteger8(x)
      call popinteger8array(a)
      call check(all(a == b), 'an array')
      ! at a height that isn't that of a chunk
      call pushinteger8(-1_int64)
      call pushinteger8array(b)
      call popinteger8array(a)
      call popinteger8(x)
      call check(all(a == b) .and. x == -1, 'an array above a word')
    end do
    c = reshape([(i, i = 1, 1500 * 1000)], [1500, 1000])
    d = c
    call pushinteger8array(c)
    c = 0
    call popinteger8(x)
    call check(x == 1500000, 'the last element of the last column on top')
    call pushinteger8(x)
    call popinteger8array(c)
    call check(all(c == d), 'an array of two dimensions')
    call check(adtape() == 0, 'an empty tape after arrays')
  end subroutine test_arrays

  ! The number of actions is that of those which turn all steps.
  subroutine test_counts()
    integer(int64) :: l, s
    do s = 1, 9
      do l = 0, 200
        call play(l, s)
      end do
    end do
    do s = 10, 64, 9
      do l = 1, 3000, 100
        call play(l, s)
      end do
    end do
    ! with more repetitions than the runtime has a table for
    call play(3000_int64, 1_int64)
    call play(100000_int64, 2_int64)
    call play(1000000_int64, 3_int64)
  end subroutine test_counts

  subroutine play(l, s)
    integer(int64), intent(in) :: l, s
    integer(int64) :: n, k, what, from, to, left, at, held, stored(64)
    call adbeg(l, s)
    call adactn(l, s, n)
    left = l
    at = 0
    held = 0
    do k = 1, n
      call adact(l, s, k, what, from, to)
      select case (what)
      case (1)
        call check(from == at .and. held < s, 'a Store')
        held = held + 1
        stored(held) = from
      case (2)
        call check(from == at .and. from < to .and. to < left, 'an Advance')
        at = to
      case (3)
        call check(from == at .and. from + 1 == left, 'a Turn')
        left = from
        at = -1
      case (4, 5)
        call check(stored(held) == from, 'a Keep or a Drop')
        at = from
        if (what == 5) held = held - 1
      case default
        call check(.false., 'an action')
      end select
    end do
    call check(left == 0 .and. held == 0, 'a whole schedule')
    call adend()
  end subroutine play

  ! Actions that are asked for out of turn, within a reversal, of other sizes than its own, and outside any.
  subroutine test_turns()
    integer(int64) :: n, k, what(100), from(100), to(100), a, f, t
    call adactn(10_int64, 3_int64, n)
    do k = 1, n
      call adact(10_int64, 3_int64, k, what(k), from(k), to(k))
    end do
    call adbeg(10_int64, 3_int64)
    do k = n, 1, -1
      call adact(10_int64, 3_int64, k, a, f, t)
      call check(a == what(k) .and. f == from(k) .and. t == to(k), 'an action in reverse')
      call adact(10_int64, 3_int64, k, a, f, t)
      call check(a == what(k) .and. f == from(k) .and. t == to(k), 'an action twice')
      call adact(7_int64, 2_int64, 1_int64, a, f, t)
      call check(a == 1 .and. f == 0 .and. t == 0, 'an action of another schedule')
    end do
    call adend()
  end subroutine test_turns

  ! An action that is asked for out of turn is the one that the schedule gives in turn, and so are those that follow it.
  subroutine test_numbers()
    integer(int64) :: l, s, n, k, i, a, f, t
    integer(int64), allocatable :: all_actions(:, :)
    do s = 1, 10
      do l = 1, 90
        call adactn(l, s, n)
        allocate (all_actions(3, n))
        do k = 1, n
          call adact(l, s, k, all_actions(1, k), all_actions(2, k), all_actions(3, k))
        end do
        do k = n, 1, -1
          do i = k, min(k + 5, n)
            call adact(l, s, i, a, f, t)
            call check(all(all_actions(:, i) == [a, f, t]), 'an action by its number')
          end do
        end do
        deallocate (all_actions)
      end do
    end do
  end subroutine test_numbers

  ! The greatest schedules have no action that is far.
  subroutine test_long_schedules()
    integer(int64), parameter :: l = 2_int64**40
    integer(int64) :: s, n, k, i, a, f, t, next(3)
    do s = 1, 64
      call adactn(l, s, n)
      call adact(l, s, n, a, f, t)
      call check(a == 3 .and. f == 0 .and. t == 1, 'the last action')
      call adact(l, s, n - 1, a, f, t)
      call check(a == 5 .and. f == 0 .and. t == 0, 'the last Drop')
      do i = 1, 50
        k = n / 51 * i
        call adact(l, s, k, a, f, t)
        call adact(l, s, k + 1, next(1), next(2), next(3))
        call check(follows([a, f, t], next), 'two actions in a row')
        call adact(l, s, k + 2, a, f, t)
        call adact(l, s, k + 1, a, f, t)
        call check(all(next == [a, f, t]), 'an action in turn and by its number')
      end do
    end do
  end subroutine test_long_schedules

  ! Whether an action may come right after another one: it begins where that one leaves the program, and the program goes back where a step was turned.
  logical function follows(one, next)
    integer(int64), intent(in) :: one(3), next(3)
    if (one(1) == 3) then
      follows = next(1) >= 4 .and. next(2) < one(2)
    else
      follows = next(2) == one(3) .and. (next(1) /= 2 .or. one(1) /= 2)
    end if
  end function follows

  ! Each turn of a reversal has a reversal of its own, and the outer one goes on where it was; ten deep, so that the list of schedules grows.
  subroutine test_nests()
    integer(int64) :: turned
    turned = 0
    call reverse(10_int64, turned)
    call check(turned == 2**10 + 2**9 + 2**8 + 2**7 + 2**6 + 2**5 + 2**4 + 2**3 + 2**2 + 2, 'the turns of a nest')
  end subroutine test_nests

  recursive subroutine reverse(deep, turned)
    integer(int64), intent(in) :: deep
    integer(int64), intent(inout) :: turned
    integer(int64) :: n, k, a, f, t
    if (deep == 0) return
    ! the innermost have the sizes of those around
    call adbeg(2_int64, 1_int64)
    call adactn(2_int64, 1_int64, n)
    do k = 1, n
      call adact(2_int64, 1_int64, k, a, f, t)
      if (a == 3) then
        turned = turned + 1
        call reverse(deep - 1, turned)
      end if
    end do
    call adend()
  end subroutine reverse

  ! How many turns a DO has: as the compiler makes them, and where its bounds are further apart than a word can say.
  subroutine test_loops()
    integer(int64), parameter :: greatest = huge(1_int64)
    integer(int64) :: first, last, step, i, counted
    do first = -7, 7
      do last = -7, 7
        do step = -6, 6
          if (step == 0) cycle
          counted = 0
          do i = first, last, step
            counted = counted + 1
          end do
          call check(turns(first, last, step) == counted, 'the turns of a loop')
        end do
      end do
    end do
    call check(turns(1_int64, greatest, 1_int64) == greatest, 'as many turns as a word can say')
    call check(turns(-1_int64, -greatest, -1_int64) == greatest, 'as many turns as a word can say, downwards')
    call check(turns(-greatest, greatest - 2, 2_int64) == greatest, 'as many turns from end to end')
    call check(turns(-greatest, greatest, greatest) == 3, 'three turns over all words')
    call check(turns(greatest, -greatest - 1, -greatest) == 3, 'three turns over all words, downwards')
    call check(turns(-greatest - 1, greatest - 1, greatest) == 3, 'three turns from the least word')
    call check(turns(greatest, -greatest - 1, -greatest - 1) == 2, 'two turns by the least word')
    call check(turns(greatest, -greatest, 1_int64) == 0, 'no turn against the step')
    call check(turns(-greatest, greatest, -1_int64) == 0, 'no turn against the step, downwards')
  end subroutine test_loops

  subroutine fail_by(way)
    character(*), intent(in) :: way
    integer(int64) :: x, y, z, a(3), i
    select case (way)
    case ('pop')
      call popinteger8(x)
    case ('control')
      call popcontrol1b(x)
    case ('array')
      call pushinteger8(1_int64)
      call popinteger8array(a)
    case ('end')
      call adend()
    case ('steps')
      call adbeg(-1_int64, 1_int64)
    case ('snapshots')
      call adactn(1_int64, 65_int64, x)
    case ('action')
      call adact(3_int64, 2_int64, 10_int64, x, y, z)
    case ('zeroth')
      call adact(3_int64, 2_int64, 0_int64, x, y, z)
    case ('fill')
      ! more words than there is memory for
      do i = 1, 2_int64**40
        call pushinteger8(i)
      end do
    case ('fill_arrays')
      do i = 1, 2_int64**40
        call pushinteger8array(a)
      end do
    end select
  end subroutine fail_by

  subroutine print_schedule(l, s)
    integer(int64), intent(in) :: l, s
    integer(int64) :: n, k, what, from, to, cost
    call adbeg(l, s)
    call adactn(l, s, n)
    cost = 0
    do k = 1, n
      call adact(l, s, k, what, from, to)
      select case (what)
      case (1)
        print '(a,i0)', 'STORE ', from
      case (2)
        print '(a,i0,a,i0)', 'ADVANCE ', from, ' ', to
        cost = cost + to - from
      case (3)
        print '(a,i0)', 'TURN ', from
      case (4)
        print '(a,i0)', 'KEEP ', from
      case (5)
        print '(a,i0)', 'DROP ', from
      end select
    end do
    call adend()
    print '(a,i0)', 'ADVANCES ', cost
  end subroutine print_schedule
end program calls
