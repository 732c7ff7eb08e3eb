C     An array named as an intrinsic of other compilers, which a marked loop puts on the tape, and one of two dimensions.
      SUBROUTINE SIZES(N,M,SIZE,SHAPE,S)
      INTEGER*8 N,M,SIZE(N),SHAPE(N,M),S
      S=0
C$AD BINOMIAL-CKP 2
      DO K=1,4
      DO I=2,N
      SIZE(I)=SIZE(I)*SIZE(I-1)
      SHAPE(I,M)=SHAPE(I-1,1)*SIZE(I)
      END DO
      DO J=1,M
      SHAPE(1,J)=SHAPE(N,J)+J
      END DO
      END DO
      S=SIZE(N)*SHAPE(N,M)
      END
