C     An Euler step of length 1/S of the equations of Lotka and Volterra, for X prey and Y predators:
C     what comes out is S times the numbers after the step.
      SUBROUTINE STEP(S, A, B, C, D, X, Y)
      INTEGER*8 S, A, B, C, D, X, Y, BORN
      BORN = Y*(S + C*X - D)
      X = X*(S + A - B*Y)
      Y = BORN
      END
