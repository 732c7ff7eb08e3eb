! The model with COMMON blocks, and its adjoint and its tangent with their members as dummies.
program blocks
  implicit none
  integer(8) :: f(5000), s, k
  common /field/ f, s
  common /number/ k
  integer(8) :: n = 3, x(3) = [1, 2, 3], y, xb(3), yb, fb(5000), kb, xd(3), yd, fd(5000), kd, i
  call start()
  k = 0
  call shared(n, x, y)
  print '(2(i0,1x))', y, k
  call start()
  yb = 1
  kb = 0
  call shared_b(n, x, xb, y, yb, f, fb, s, k, kb)
  print '(3(i0,1x))', xb
  call start()
  xd = 1
  call shared_d(n, x, xd, y, yd, f, fd, s, k, kd)
  print '(2(i0,1x))', y, yd

contains

  subroutine start()
    f = [(i, i = 1, 5000)]
    s = 2
    y = 0
  end subroutine start
end program blocks
