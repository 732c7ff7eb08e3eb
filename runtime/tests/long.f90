! Y is the cube of X, and XB its derivative, at each call.
program long_locals
  implicit none
  integer(8) :: x, xb, y, yb
  integer :: k
  do k = 1, 2
    x = 7
    call long(x, y)
    yb = 1
    call long_b(x, xb, y, yb)
    print '(a,i0,a,i0)', 'cube ', y, ', derivative ', xb
  end do
end program long_locals
