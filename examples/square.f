      SUBROUTINE P(X,Y)
      INTEGER*8 X,Y
      Y=X*X
      END
