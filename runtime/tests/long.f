C     Local arrays of the greatest size, which no stack has room for, and short ones that the unit finds 0 at each entry.
      SUBROUTINE LONG(X,Y)
      INTEGER*8 X,Y,A(1024,1024),B(1048576),C(10)
      A(1024,1024)=A(1024,1024)+X*X
      B(1048576)=B(1048576)+A(1024,1024)*X
      C(10)=C(10)+B(1048576)
      Y=C(10)+A(1,1)
      END
