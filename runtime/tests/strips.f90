! Prints what the command `run` prints of the same text, but for the statements that it used.
program strips_of
  implicit none
  integer(8), external :: adtape
  integer(8) :: n = 9, a(9) = [11, 12, 13, 14, 15, 16, 17, 18, 19], x = 4, y = 1
  call strips(n, a, x, y)
  print '(a,i0)', 'N ', n
  print '(a,9(1x,i0))', 'A', a
  print '(a,i0)', 'X ', x
  print '(a,i0)', 'Y ', y
  print '(a,i0)', 'TAPE ', adtape()
end program strips_of
