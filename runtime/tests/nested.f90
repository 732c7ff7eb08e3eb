! The derivatives of nested marked loops are those of the same loops without marks. Arguments: the turns of the outer and of the inner loop.
program nested_marks
  implicit none
  integer(8), external :: adtape
  integer(8) :: n, m, a, ab, x, xb, c, cb, y, yb
  character(20) :: argument
  call get_command_argument(1, argument)
  read (argument, *) n
  call get_command_argument(2, argument)
  read (argument, *) m
  a = 3; x = 5; xb = 1
  call nested_b(n, m, a, ab, x, xb)
  c = 3; y = 5; yb = 1
  call plain_b(n, m, c, cb, y, yb)
  print '(a,l2,a,l2)', 'equal', ab == cb .and. xb == yb, ', not 0', ab /= 0
  print '(a,i0)', 'words left ', adtape()
end program nested_marks
