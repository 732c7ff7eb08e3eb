! Prints the shadows of examples/network.f on the data of examples/network.data. The model itself is called too, so that its units are linked.
program network
  implicit none
  integer(8) :: n = 3, v(9), vb(9) = 0, w(9), wb(9) = 0, x(3), xb(3) = 0, h(3) = 0, hb(3) = 0, y(3) = 0, yb(3) = 1, i
  v = [(i, i = 1, 9)]
  w = [1, 0, 2, 0, 3, 0, -1, 0, 1]
  x = [1, -1, 2]
  call net(n, v, w, x, h, y)
  call net_b(n, v, vb, w, wb, x, xb, h, hb, y, yb)
  print '(a,9(1x,i0))', 'VB', vb
  print '(a,9(1x,i0))', 'WB', wb
  print '(a,3(1x,i0))', 'XB', xb
  print '(a,3(1x,i0))', 'YB', yb
end program network
