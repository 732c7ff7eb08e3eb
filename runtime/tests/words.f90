! Prints what the command `run` prints of the same text, but for the statements that it used.
program words
  implicit none
  integer(8), external :: adtape
  integer(8) :: n = 3, a(3) = [11, 12, 13], b(2, 3) = reshape([21, 22, 23, 24, 25, 26], [2, 3]), x = 4, y = 0
  call words_of(n, a, b, x, y)
  print '(a,i0)', 'N ', n
  print '(a,3(1x,i0))', 'A', a
  print '(a,6(1x,i0))', 'B', b
  print '(a,i0)', 'X ', x
  print '(a,i0)', 'Y ', y
  print '(a,i0)', 'TAPE ', adtape()
end program words
