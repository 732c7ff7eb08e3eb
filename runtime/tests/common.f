C     Units that share blocks, one of them with a long array.
      SUBROUTINE SHARED(N,X,Y)
      INTEGER*8 N,X(N),Y
      COMMON /FIELD/ F,S
      INTEGER*8 F(5000),S
      DO I=1,N
      CALL ADDED(I,X(I)*S)
      IF (F(I).GT.3) CALL COUNT
      END DO
      DO I=1,N
      Y=Y+F(I)*F(I)*S
      END DO
      END
      SUBROUTINE ADDED(I,V)
      INTEGER*8 I,V
      COMMON /FIELD/ G(5000),T
      INTEGER*8 G,T
      G(I)=G(I)*V+T
      END
      SUBROUTINE COUNT
      COMMON /NUMBER/ K
      K=K+1
      END
