C     A marked loop in a marked loop.
      SUBROUTINE NESTED(N,M,A,X)
      INTEGER*8 N,M,A,X
C$AD BINOMIAL-CKP 3
      DO I=1,N
      X=X+I
C$AD BINOMIAL-CKP 2
      DO J=1,M
      X=X*X*A+J
      END DO
      END DO
      END
