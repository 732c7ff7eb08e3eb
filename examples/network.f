C     A network of two layers with the weights V and W, between which each value is squared.
      SUBROUTINE NET(N, V, W, X, H, Y)
      INTEGER*8 N, V(N,N), W(N,N), X(N), H(N), Y(N)
      CALL LAYER(N, V, X, H)
      CALL SQUARE(N, H)
      CALL LAYER(N, W, H, Y)
      END

      SUBROUTINE LAYER(N, W, X, Y)
      INTEGER*8 N, W(N,N), X(N), Y(N)
      DO I = 1, N
        Y(I) = 0
        DO J = 1, N
          Y(I) = Y(I) + W(I,J)*X(J)
        END DO
      END DO
      END

      SUBROUTINE SQUARE(N, H)
      INTEGER*8 N, H(N)
      DO I = 1, N
        H(I) = H(I)**2
      END DO
      END
