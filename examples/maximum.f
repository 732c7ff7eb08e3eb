C     The running maximum R of A: the greatest value so far.
      SUBROUTINE MAXIMA(N, A, R)
      INTEGER*8 N, A(N), R(N), G
      G = A(1)
      DO I = 1, N
        IF (A(I) .GT. G) G = A(I)
        R(I) = G
      END DO
      END
