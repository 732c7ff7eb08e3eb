C     The misfit S of the line A*X+B: the sum of the squares of what it misses at N observations.
      SUBROUTINE MISFIT(N, X, SEEN, A, B, S)
      INTEGER*8 N, X(N), SEEN(N), A, B, S, R
      S = 0
      DO I = 1, N
        R = A*X(I) + B - SEEN(I)
        S = S + R**2
      END DO
      END
