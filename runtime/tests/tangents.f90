! Words that carry tangents, by overloaded operators: what a program of the language computes on them is its dual run (docs/RUNNING.md).
! Words wrap modulo 2**64, and so do tangents, where this is compiled with -fwrapv.
module tangents
  implicit none
  private
  public :: tg_dual, tg_number, tg_value
  public :: operator(+), operator(-), operator(*), operator(/), operator(**), mod, max, min, abs
  public :: operator(<), operator(<=), operator(==), operator(/=), operator(>), operator(>=)

  ! A local is 0 at each entry.
  type :: tg_dual
    integer(8) :: v = 0, d = 0
  end type tg_dual

  interface operator(+)
    module procedure plus, sum_of
  end interface
  interface operator(-)
    module procedure minus, difference
  end interface
  interface operator(*)
    module procedure product_of
  end interface
  interface operator(/)
    module procedure quotient
  end interface
  interface operator(**)
    module procedure power
  end interface
  interface operator(<)
    module procedure less
  end interface
  interface operator(<=)
    module procedure at_most
  end interface
  interface operator(==)
    module procedure equal
  end interface
  interface operator(/=)
    module procedure unequal
  end interface
  interface operator(>)
    module procedure greater
  end interface
  interface operator(>=)
    module procedure at_least
  end interface
  interface mod
    module procedure remainder
  end interface
  interface max
    module procedure greater_of
  end interface
  interface min
    module procedure lesser_of
  end interface
  interface abs
    module procedure absolute
  end interface

contains

  pure type(tg_dual) function tg_number(n)
    integer(8), intent(in) :: n
    tg_number = tg_dual(n, 0)
  end function tg_number

  pure integer(8) function tg_value(a)
    type(tg_dual), intent(in) :: a
    tg_value = a%v
  end function tg_value

  pure type(tg_dual) function plus(a)
    type(tg_dual), intent(in) :: a
    plus = a
  end function plus

  pure type(tg_dual) function minus(a)
    type(tg_dual), intent(in) :: a
    minus = tg_dual(-a%v, -a%d)
  end function minus

  pure type(tg_dual) function sum_of(a, b)
    type(tg_dual), intent(in) :: a, b
    sum_of = tg_dual(a%v + b%v, a%d + b%d)
  end function sum_of

  pure type(tg_dual) function difference(a, b)
    type(tg_dual), intent(in) :: a, b
    difference = tg_dual(a%v - b%v, a%d - b%d)
  end function difference

  pure type(tg_dual) function product_of(a, b)
    type(tg_dual), intent(in) :: a, b
    product_of = tg_dual(a%v * b%v, a%d * b%v + a%v * b%d)
  end function product_of

  ! a function of steps
  pure type(tg_dual) function quotient(a, b)
    type(tg_dual), intent(in) :: a, b
    quotient = tg_dual(a%v / b%v, 0)
  end function quotient

  pure type(tg_dual) function remainder(a, b)
    type(tg_dual), intent(in) :: a, b
    remainder = tg_dual(mod(a%v, b%v), 0)
  end function remainder

  ! the exponent carries no derivative
  pure type(tg_dual) function power(a, k)
    type(tg_dual), intent(in) :: a, k
    power = tg_dual(1, 0)
    if (k%v > 0) power = tg_dual(word_power(a%v, k%v), k%v * word_power(a%v, k%v - 1) * a%d)
  end function power

  pure integer(8) function word_power(a, k)
    integer(8), intent(in) :: a, k
    integer(8) :: square, rest
    word_power = 1
    square = a
    rest = k
    do while (rest > 0)
      if (mod(rest, 2_8) == 1) word_power = word_power * square
      square = square * square
      rest = rest / 2
    end do
  end function word_power

  ! of equal arguments the first
  pure type(tg_dual) function greater_of(a, b)
    type(tg_dual), intent(in) :: a, b
    greater_of = a
    if (b%v > a%v) greater_of = b
  end function greater_of

  pure type(tg_dual) function lesser_of(a, b)
    type(tg_dual), intent(in) :: a, b
    lesser_of = a
    if (b%v < a%v) lesser_of = b
  end function lesser_of

  pure type(tg_dual) function absolute(a)
    type(tg_dual), intent(in) :: a
    absolute = a
    if (a%v < 0) absolute = minus(a)
  end function absolute

  pure logical function less(a, b)
    type(tg_dual), intent(in) :: a, b
    less = a%v < b%v
  end function less

  pure logical function at_most(a, b)
    type(tg_dual), intent(in) :: a, b
    at_most = a%v <= b%v
  end function at_most

  pure logical function equal(a, b)
    type(tg_dual), intent(in) :: a, b
    equal = a%v == b%v
  end function equal

  pure logical function unequal(a, b)
    type(tg_dual), intent(in) :: a, b
    unequal = a%v /= b%v
  end function unequal

  pure logical function greater(a, b)
    type(tg_dual), intent(in) :: a, b
    greater = a%v > b%v
  end function greater

  pure logical function at_least(a, b)
    type(tg_dual), intent(in) :: a, b
    at_least = a%v >= b%v
  end function at_least
end module tangents
