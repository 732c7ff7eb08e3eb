C     M steps of a wave on a string of N points whose ends are held: U has the heights, V how much they grow
C     in a step, and C the stiffness of the string at each point. S gathers the squares of the heights next to
C     the far end, so its gradient by C says at which points more stiffness would bring more of the wave there.
C     The loop is marked: where its steps are turned back, the states before three of them at most lie on the
C     tape, and others are got by running forward from these once more.
      SUBROUTINE WAVE(N, M, C, U, V, S)
      INTEGER*8 N, M, C(N), U(N), V(N), S
      S = 0
C$AD BINOMIAL-CKP 3
      DO 30 K = 1, M
      DO 10 I = 2, N-1
      V(I) = V(I) + C(I)*(U(I-1) - 2*U(I) + U(I+1))
   10 CONTINUE
      DO 20 I = 2, N-1
      U(I) = U(I) + V(I)
   20 CONTINUE
      S = S + U(N-1)**2
   30 CONTINUE
      END
