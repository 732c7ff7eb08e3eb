C     The value of A*X**2+B*X+C, by Horner's rule.
      SUBROUTINE HORNER(X, A, B, C, Y)
      INTEGER*8 X, A, B, C, Y
      Y = A
      Y = Y*X + B
      Y = Y*X + C
      END
