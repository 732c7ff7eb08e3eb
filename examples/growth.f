C     Steps of logistic growth in fixed point: R and X count thousandths. Each quotient is cut to a whole number,
C     so no derivative passes through it: that by R is 0, and that by X is 1, whatever the numbers are.
      SUBROUTINE GROWTH(N, R, X)
      INTEGER*8 N, R, X, G
      DO 10 K = 1, N
      G = X*(1000-X)/1000
      X = X + R*G/1000
   10 CONTINUE
      END
