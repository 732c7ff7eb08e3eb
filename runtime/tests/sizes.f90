! Prints the shadows as the command `run` prints them on the same data.
program sizes
  implicit none
  integer(8), external :: adtape
  integer(8) :: n = 4, m = 3, a(4) = [2, 3, 5, 7], ab(4) = 0, b(12), bb(12) = 0, s = 0, sb = 1, i
  b = [(i, i = 1, 12)]
  call sizes_b(n, m, a, ab, b, bb, s, sb)
  print '(a,4(1x,i0))', 'SIZEB', ab
  print '(a,12(1x,i0))', 'SHAPEB', bb
  print '(a,i0)', 'SB ', sb
  print '(a,i0)', 'TAPE ', adtape()
end program sizes
