C     The same loops without marks.
      SUBROUTINE PLAIN(N,M,A,X)
      INTEGER*8 N,M,A,X
      DO I=1,N
      X=X+I
      DO J=1,M
      X=X*X*A+J
      END DO
      END DO
      END
