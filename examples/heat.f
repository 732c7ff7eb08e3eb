C     M explicit steps of the heat equation on a rod of N points whose ends are kept. A step takes the mean
C     of each point, with weight 2, and of its neighbours, with weight 1. The weights aren't divided
C     by their sum, so what comes out is 4**M times the temperatures.
      SUBROUTINE HEAT(N, M, U, V)
      INTEGER*8 N, M, U(N), V(N)
      DO 30 K = 1, M
      V(1) = 4*U(1)
      DO 10 I = 2, N-1
      V(I) = U(I-1) + 2*U(I) + U(I+1)
   10 CONTINUE
      V(N) = 4*U(N)
      DO 20 I = 1, N
      U(I) = V(I)
   20 CONTINUE
   30 CONTINUE
      END
