C     The values Y of the polynomial with the coefficients A, the one of the highest power first, at M points X,
C     by Horner's rule.
      SUBROUTINE VALUES(N, A, M, X, Y)
      INTEGER*8 N, A(N), M, X(M), Y(M)
      DO J = 1, M
        Y(J) = 0
        DO I = 1, N
          Y(J) = Y(J)*X(J) + A(I)
        END DO
      END DO
      END
