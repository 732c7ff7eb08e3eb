      SUBROUTINE KINDS(N,X,Y)
      INTEGER*8 N,X(3),Y,T
C     all kinds of statements, some of them without a derivative
      T=1
      DO WHILE (T.LE.N)
      IF (T.EQ.2) THEN
      Y=Y*MAX(X(1),MIN(X(2),X(3)))
      ELSE IF (T.EQ.3) THEN
      CALL SQUARE(X(T))
      ELSE
      CALL TWICE(Y)
      END IF
      T=T+1
      END DO
C$AD BINOMIAL-CKP 2
      DO 10 K=1,N
C$AD BINOMIAL-CKP 1
      DO 10 I=1,3
      X(I)=X(I)*Y+ABS(X(1))
   10 CONTINUE
      DO J=3,1,-1
      IF (J.NE.2) Y=Y+X(J)**J
      END DO
      CALL SQUARE(Y)
      CALL TWICE(Y)
      END
      SUBROUTINE SQUARE(A)
      INTEGER*8 A
      A=A*A
      END
      SUBROUTINE TWICE(A)
      INTEGER*8 A
      A=2*A
      END
