C     Loops that push and pop words, which `runtime/prepare` writes in strips. The array leaves room for six words in a chunk of the tape, so that most loops
C     cross its border: some in the middle of a turn, some with turns of other numbers of words.
      SUBROUTINE STRIPS(N,A,X,Y)
      INTEGER*8 N,A(N),X,Y,Z(1048570)
      CALL PUSHINTEGER8ARRAY(Z)
      DO I=1,N
      CALL PUSHINTEGER8(A(I))
      X=X*X+A(I)
      END DO
      Y=Y*31+I
      DO I=N,1,-1
      CALL POPINTEGER8(K)
      Y=Y*31+K-X*I
      END DO
      Y=Y*31+I
C     one word or four
      DO I=1,N
      CALL PUSHINTEGER8(A(I))
      IF(MOD(I,2).EQ.1)THEN
      CALL PUSHINTEGER8(I)
      A(I)=A(I)*A(I)-I
      CALL PUSHINTEGER8(A(I))
      CALL PUSHCONTROL1B(I*7)
      ELSE
      X=X+1
      END IF
      END DO
      DO J=N-1,0,-1
      I=1+J
      IF(MOD(I,2).EQ.1)THEN
      CALL POPCONTROL1B(L)
      CALL POPINTEGER8(K)
      Y=Y*31+K*L
      CALL POPINTEGER8(K)
      Y=Y*31+K
      END IF
      CALL POPINTEGER8(A(I))
      END DO
      Y=Y*31+I*J
C     words that come and go within a turn, more of them pushed than popped
      DO I=1,N
      CALL PUSHINTEGER8(I)
      CALL PUSHINTEGER8(X)
      X=X*5+A(I)
      CALL POPINTEGER8(K)
      L=K+X
      CALL PUSHINTEGER8(L)
      CALL PUSHINTEGER8(K)
      CALL POPINTEGER8(L)
      Y=Y*31+L+K
      END DO
      DO I=N,1,-1
      CALL POPINTEGER8(A(I))
      CALL POPINTEGER8(K)
      Y=Y*31+K
      END DO
C     literal bounds with eight turns between them, and with seven, for which no strip is made
      DO I=3,-11,-2
      CALL PUSHINTEGER8(I)
      END DO
      Y=Y*31+I
      DO I=-6,0
      CALL POPINTEGER8(K)
      Y=Y*31+K
      END DO
      CALL POPINTEGER8(K)
      Y=Y*31+K*I
C     bounds that are set anew within the loop, and made of its variable before
      K=2
      L=19
      DO I=1,L,K
      CALL PUSHINTEGER8(I)
      K=K+1
      L=L-1
      END DO
      Y=Y*31+I
      I=3
      DO I=I+9,I,-1
      CALL POPINTEGER8(L)
      Y=Y*31+L
      END DO
      Y=Y*31+I
C     a step that is no literal, and the border in the middle of a turn
      CALL PUSHINTEGER8(Y)
      L=-3
      DO I=20,2,L
      CALL PUSHINTEGER8(I)
      J=I*I
      CALL PUSHINTEGER8(J)
      END DO
      Y=Y*31+I
      DO I=-9,K-5,1+1
      CALL POPINTEGER8(L)
      CALL POPINTEGER8(J)
      Y=Y*31+L*J
      END DO
      Y=Y*31+I
C     bounds that are further apart than a word can say, up and down
      L=-9000000000000000000
      DO I=L,9000000000000000000,4000000000000000000
      CALL PUSHINTEGER8(I)
      END DO
      Y=Y*31+I
      K=-9223372036854775807
      DO I=9000000000000000000,-9000000000000000000,K
      CALL PUSHINTEGER8(I)
      END DO
      Y=Y*31+I
C     no turn
      DO I=9000000000000000000,L
      CALL PUSHINTEGER8(I)
      END DO
      Y=Y*31+I
      K=2
      DO I=3,K
      CALL PUSHINTEGER8(I)
      END DO
      Y=Y*31+I
      DO I=2,N,-2
      CALL POPINTEGER8(K)
      END DO
      Y=Y*31+I
      CALL POPINTEGER8(X)
      END
$DATA
N 9
A 11 12 13 14 15 16 17 18 19
X 4
Y 1
