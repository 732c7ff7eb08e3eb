C     What `runtime/prepare` takes apart, in every form in which it may stand: small letters, blanks within names, continuation lines, labels, an IF with
C     one statement, names that begin as those that are made, and calls on whose way the tape's height is handed on.
      SUBROUTINE WORDS_OF(N,A,B,X,Y)
      INTEGER*8 N,A(N),B(2,N),X,Y,ADRT,ADRTX(3)
      INTEGER*8 Z(3,3),CALLS
      adrt = 2
      Z(2,2)=5
      CALL PUSH INTEGER8( A(1
     &) )
   10 CALL PUSHINTEGER8(x)
      CALL PUSHINTEGER8ARRAY(A)
      call pushinteger8array(B)
      CALL PUSHINTEGER8ARRAY(Z)
      CALL PUSHCONTROL1B(ADRT*3)
      IF (X.GT.(0)) CALL PUSHINTEGER8(X)
      IF (X.LE.(0)) CALL PUSHINTEGER8(Y)
      CALLS=1
      IF(CALLS.EQ.1)THEN
      CALL ADDER(N,A,X)
      ELSE IF(CALLS.EQ.2)THEN
      CALL PUSHINTEGER8(N)
      END IF
      IF (X.NE.1) CALL ADDER(N,A,X)
      CALL ADZERO8(B)
      ADRTX(1)=3
      DO 20 I=1,3
      CALL PUSHINTEGER8(ADRTX(I))
   20 CONTINUE
      DO 30 I=3,1,-1
      CALL POPINTEGER8(ADRTX(4-I))
   30 CONTINUE
      B(1,1)=ADRTX(3)
      CALL POPINTEGER8(B(2,ADRTX(3)-2))
      CALL POPINTEGER8(A(N))
      CALL POPINTEGER8(Y)
      CALL POPCONTROL1B(ADRT)
      Y=Y+ADRT
      CALL ADZERO8(Z)
      CALL POPINTEGER8ARRAY(Z)
      CALL POPINTEGER8ARRAY(B)
      CALL POPINTEGER8ARRAY(A)
      CALL POPINTEGER8(X)
      CALL POPINTEGER8(A(2))
      X=X+Z(2,2)*100
      RETURN
      END
C     Leaves two words on the tape.
      SUBROUTINE ADDER(N,A,X)
      INTEGER*8 N,A(N),X
      K=N+10
      CALL PUSHINTEGER8(K)
      CALL INNER(A(1),X)
      END
      SUBROUTINE INNER(A,X)
      INTEGER*8 A,X
      A=A+1
      CALL PUSHINTEGER8(A)
      X=X-1
      END
$DATA
N 3
A 11 12 13
B 21 22 23 24 25 26
X 4
Y 0
