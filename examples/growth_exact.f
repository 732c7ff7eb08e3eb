C     Steps of logistic growth in fixed point: R and X count parts of 999. Each division is by an odd number, and
C     is written so that the derivative passes (docs/FIXED_POINT.md).
      SUBROUTINE EXACT(N, R, X)
      INTEGER*8 N, R, X, G, D
      DO 10 K = 1, N
      CALL DIV999(X*(999-X), G)
      CALL DIV999(R*G, D)
      X = X + D
   10 CONTINUE
      END
C     Q becomes A/999: A-MOD(A,999) is a multiple of 999, and the factor is the inverse of 999 modulo 2**64.
      SUBROUTINE DIV999(A, Q)
      INTEGER*8 A, Q
      Q = (A-MOD(A,999))*(-4727093576446091305)
      END
